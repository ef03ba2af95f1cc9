# The words of a call. Read by plot.
# shellcheck shell=bash disable=SC2034  # names that other files of plot use

# list_choices: of what is drawn. A part of the help.
list_choices() {
    cat <<'END'
  --over OPTION         what is on the axis: an option of the table whose
                        values are numbers [default: the size of the
                        cache]. A flushcount of 0 stands behind all
                        others, as `never`, and a maxcount of 0 as `all`
  --by OPTION           draw a line, or a group of bars, for each value
                        of this option; `trace` is one too [default: the
                        ways of the cache, or its size if --over is its
                        ways]
  --only OPTION VALUE   draw only the lines of the table in which the
                        option has this value, or one of its values if
                        the option is given again; `--only OPTION=VALUE`
                        does so too. Needed where lines differ in further
                        options. Of a cache of the first level, lines
                        that differ in options of other caches alone are
                        one point, if its counts are the same in them
  --cache NAME          l1-icache, l1-dcache or l2-ucache [default: the
                        one of --over, or the one whose size is varied]
END
}

# list_looks: how it is drawn. A part of the help.
list_looks() {
    cat <<'END'
  --whole-counts        kinds by Hill and Smith's subtraction: capacity
                        is the misses of a fully associative cache less
                        the compulsory ones, and conflict all misses less
                        those of the fully associative cache, which can
                        be below zero. Needs the column
                        CACHE-fully-associative-misses. Without it, each
                        miss counts by its own kind
  --linear              rates on a linear axis; without it, the axis of
                        sizes and of ways is logarithmic, with base 2,
                        and that of flushcount and maxcount with base 10
  --title TEXT          of one line [default: the trace, the cache, its
                        size, ways, blocks and policies, as far as the
                        table has them and they are the same in all that
                        is drawn, and each other option of which --only
                        chose one value]
  --size WxH            pixels, 96 of them to the inch in a PDF, from
                        200x150 to 10000x10000 [default: 720x460, or more
                        if there is much to draw]
  --font NAME[,SIZE]    the SIZE is in points, from 4 to 200 [default:
                        sans-serif, with 9 at 720x460, and at another
                        --size more or less, but 8 at least]
  --version             as the first word: print the name and the version
  --                    all that follows is a kind, a table or a picture,
                        also where its name begins with a hyphen
END
}

kind=
table=
picture=
cache=
over=
by=
title=
size=
font=
font_name=sans-serif
font_size=
whole=
linear=
only=()

# The options that were given, each between blanks.
given=' '

# is_given OPTION
is_given() {
    [[ $given == *" $1 "* ]]
}

# once OPTION: it was not given before.
once() {
    ! is_given "$1" || refuse "$1 is given twice"
    given+="$1 "
}

# take OPTION WORD..: sets `taken` to how many of the words are its value.
take() {
    [ $# -ge 2 ] || refuse "$1 has no value"
    taken=1
    [ "$1" = --only ] || once "$1"
    case $1 in
    --cache) cache=$2 ;;
    --over) over=$2 ;;
    --by) by=$2 ;;
    --title) title=$2 ;;
    --size) size=$2 ;;
    --font) font=$2 ;;
    --only)
        if [[ $2 == *=* ]]; then
            only+=("$2")
        else
            [ $# -ge 3 ] || refuse "--only $2 has no value"
            only+=("$2=$3")
            taken=2
        fi
        ;;
    esac
}

# set_flag OPTION
set_flag() {
    once "$1"
    case $1 in
    --whole-counts) whole=whole ;;
    --linear) linear=yes ;;
    esac
}

parse() {
    local words=()
    while [ $# -gt 0 ]; do
        case $1 in
        -h | --help) show_help ;;
        --)
            words+=("${@:2}")
            break
            ;;
        --whole-counts | --linear) set_flag "$1" ;;
        --whole-counts=* | --linear=*) refuse "${1%%=*} takes no value" ;;
        --cache | --over | --by | --title | --size | --font | --only)
            take "$@"
            shift "$taken"
            ;;
        --*=*)
            set -- "${1%%=*}" "${1#*=}" "${@:2}"
            continue
            ;;
        -?*) refuse "unknown option: $1" ;;
        *) words+=("$1") ;;
        esac
        shift
    done
    [ ${#words[@]} -ge 3 ] || refuse 'a kind, a table and a picture are needed'
    [ ${#words[@]} -eq 3 ] || refuse "a word behind the picture: ${words[3]}"
    kind=${words[0]} table=${words[1]} picture=${words[2]}
}

check_words() {
    local option
    case $kind in
    kinds | rates) ;;
    *) refuse "unknown kind: $kind" ;;
    esac
    case $picture in
    *.svg | *.png | *.pdf) ;;
    *) refuse "none of .svg, .png and .pdf: $picture" ;;
    esac
    case $cache in
    l1-icache | l1-dcache | l2-ucache) ;;
    *) ! is_given --cache || refuse "unknown cache: $cache" ;;
    esac
    [ "$kind" = kinds ] || ! is_given --whole-counts || refuse '--whole-counts is of kinds'
    [ "$kind" = rates ] || ! is_given --linear || refuse '--linear is of rates'
    [[ $title != *[[:cntrl:]]* ]] ||
        refuse '--title: it has a line feed, a tab or another control character'
    ! is_given --over || [ -n "$over" ] || refuse '--over has no value'
    ! is_given --by || [ -n "$by" ] || refuse '--by has no value'
    ! is_given --size || check_size
    ! is_given --font || check_font
}

check_size() {
    [[ $size =~ ^[1-9][0-9]{0,4}x[1-9][0-9]{0,4}$ ]] || refuse "--size: not WxH: '$size'"
    if [ "${size%x*}" -lt 200 ] || [ "${size#*x}" -lt 150 ] || [ "${size%x*}" -gt 10000 ] ||
        [ "${size#*x}" -gt 10000 ]; then
        refuse "--size: not from 200x150 to 10000x10000: '$size'"
    fi
}

# check_font: its name stands between quotes of gnuplot, and in the picture, so few characters may
# be in it.
check_font() {
    local LC_ALL=C
    [[ $font =~ ^([A-Za-z][A-Za-z0-9 ._-]{0,99})(,([1-9][0-9]{0,2}))?$ ]] ||
        refuse "--font: not NAME or NAME,SIZE: '$font'"
    font_name=${BASH_REMATCH[1]} font_size=${BASH_REMATCH[3]}
    [ -z "$font_size" ] || { [ "$font_size" -ge 4 ] && [ "$font_size" -le 200 ]; } ||
        refuse "--font: a size is from 4 to 200: '$font'"
}
