# shellcheck shell=bash
# What the scripts share. A script sets `name`, the name that its messages begin with, and is run in the top folder of the checkout.

# fail MESSAGE [STATUS]: whatever is wrong gets one line on standard error, and an exit status that is not 0
fail() {
    echo "$name: $1" >&2
    exit "${2:-1}"
}

# wrong MESSAGE: wrong usage
wrong() {
    fail "$1 ($name --help has the usage)" 2
}

# show_help: the comment that a script opens with
show_help() {
    sed -n '2,/^[^#]/s/^# \{0,1\}//p' "$0"
    exit 0
}

# want TOOL...: they have to be on the PATH
want() {
    local tool
    for tool; do
        command -v "$tool" > /dev/null || fail "$tool is not on the PATH (README.md says what has to be there)"
    done
}

# want_writable FOLDER...: what is built goes into these folders of the checkout; one that is not there yet is made in the folder above it
want_writable() {
    local folder
    for folder; do
        [ -e "$folder" ] || folder=$(dirname "$folder")
        [ -w "$folder" ] || fail "$(realpath "$folder"): may not be written, and what is built goes there"
    done
}
