# What the shell scripts of tests/, tools/ and bench/ have in common: how they read their words, the built program, and
# what they count. It is read by them, in the repository's folder, not run; the variable script is the script's path.

# words FORM MOST WORD..: goes on where there are at most so many words and none is an option. The word --help shows the
# head of the script; any other is refused, with the form of the words, before anything is done.
words() {
    form=$1
    most=$2
    shift 2
    case ${1-} in
        --help)
            sed -n '2,/^[^#]/s/^# \{0,1\}//p' "$script"
            exit 0
            ;;
        -*) ;;
        *)
            [ $# -gt "$most" ] || return 0
            ;;
    esac
    echo "usage: $script${form:+ $form}, or $script --help" >&2
    exit 2
}

# built FILE FOLDER: the program that a word names, from the folder where the script was called, or else the built one.
built() {
    case $1 in
        "") program=$PWD/crates/tatp/out/tatp ;;
        /*) program=$1 ;;
        *) program=$2/$1 ;;
    esac
    if [ ! -x "$program" ]; then
        echo "$script: there is no program $program: ./tatp --version builds the proved one" >&2
        exit 1
    fi
}

# ---- what is counted
passed=0
failed=0
name=

# count STATUS FAULT: a case, whose name is the variable name where it has one. Where the status isn't 0 the case
# failed, and the fault is told.
count() {
    if [ "$1" = 0 ]; then
        passed=$((passed + 1))
    else
        failed=$((failed + 1))
        echo "failed: ${name:+$name: }$2"
    fi
}

# counted: prints the sum; its status is that of the script, whose last command it is.
counted() {
    echo "$passed passed, $failed failed"
    [ "$failed" = 0 ] && [ "$passed" != 0 ]
}
