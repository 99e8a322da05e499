# For scripts that build and run C beside the twin, for x86-64, as the kit and what it builds are. What is missing is installed by root, and a
# line says so; who may not install is told what is missing, and the script ends with status 2, as it does without the kit and on another
# kind of machine.
command -v rt >/dev/null || { echo "$0: there is no command rt on the path: the Rattle kit is needed" >&2; exit 2; }
[ "$(uname -m)" = x86_64 ] || { echo "$0: the Rattle kit is for x86-64, and this machine is $(uname -m)" >&2; exit 2; }
missing=
wants() { # COMMAND PACKAGE..
    command -v "$1" >/dev/null 2>&1 && return
    shift
    missing="$missing $*"
}
wants gcc gcc libc6-dev
wants make make
if [ -n "$missing" ]; then
    [ "$(id -u)" -eq 0 ] && command -v apt-get >/dev/null 2>&1 || { echo "$0: install these packages first:$missing" >&2; exit 2; }
    echo "$0: installing$missing" >&2
    { apt-get update && apt-get install -y $missing; } >/dev/null 2>&1 || { echo "$0: could not install$missing" >&2; exit 2; }
fi
