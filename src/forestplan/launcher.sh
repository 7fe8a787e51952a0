# Sourced by the scripts that run Python or a program.
package=${BASH_SOURCE[0]%/*}

# Ends this shell, if a limit of /proc/self/limits is lower: within_limits STATUS WORDS NAME=LEAST .. What would begin
# then ends by a signal, or says more than a line.
within_limits() {
  local least
  limits=
  [[ ! -r /proc/self/limits ]] || IFS= read -r -d '' limits </proc/self/limits || :
  for least in "${@:3}"; do
    [[ $limits =~ Max\ ${least%=*}\ +([0-9]+) ]] && ((BASH_REMATCH[1] < ${least#*=})) || continue
    echo "${0##*/}: $2: ${least%=*} is limited to ${BASH_REMATCH[1]} bytes (ulimit), and ${least#*=} are needed" >&2
    exit "$1"
  done
}

# Python in place of this shell: begin FOLDER [arguments]. In place of a closed stream, or a folder as standard
# input, it gets one that refuses what it is for. (The shell has its script in the place of a closed standard error.)
# In an installed folder it leaves nothing that it compiles.
begin() {
  [[ -e /dev/stdin && ! -d /dev/stdin ]] || exec 0>/dev/null
  [[ -e /dev/stdout ]] || exec 1</dev/null
  [[ -e /dev/stderr && ! /dev/stderr -ef $0 ]] || exec 2>/dev/null
  within_limits 1 "out of memory" "stack size=262144" "address space=33554432" "data size=16777216"
  local held=() options=(-S -X utf8)
  [[ ! -e $package/../../VERSION && ! -e $package/installed/VERSION ]] || options+=(-B)
  # Ctrl-C waits until process_exit.py takes it: while Python itself begins, it would print a traceback. Of few
  # processes none is asked whether `env` can have it wait.
  trap 'exit 130' INT
  [[ $limits =~ processes\ +[0-9]{1,3}\  ]] || ! env --block-signal=INT true 2>/dev/null || held=(env --block-signal=INT)
  exec "${held[@]}" python3 "${options[@]}" "$@"
}

# Prints what needs no program, the version or a text of src/forestplan/help/, and ends this shell: say_known NAME
# [arguments].
say_known() {
  [ "${*:2}" != --version ] || begin "$package" --version
  [[ $# -le 3 && ${!#} =~ ^(-h|--help)$ && -r $package/help/$1${3:+-$2}.txt ]] || return 0
  local text
  IFS= read -r -d '' text <"$package/help/$1${3:+-$2}.txt" || :
  trap '' PIPE XFSZ
  [[ $text ]] && printf %s "$text" 2>/dev/null && exit 0
  echo "$1: stream" >&2 || :
  exit 4
}

# The program FILE in place of this shell: run_program FILE NAME [arguments]. A file that may not grow is a fault of the
# stream then, and no signal. A terminal gets a line of a long run now and then. Large pages make large networks faster.
run_program() {
  within_limits 4 memory "stack size=262144"
  trap '' XFSZ
  if [[ -t 2 && ${3-} =~ ^(plan|transcript)$ ]]; then (begin "$package" progress $$ "$2" "$3") </dev/null >/dev/null & fi
  GLIBC_TUNABLES=${GLIBC_TUNABLES-glibc.malloc.hugetlb=1} exec "$1" "${@:3}"
}
