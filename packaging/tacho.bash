# Completion of the words of tacho for bash.

_tacho() {
  local word=${COMP_WORDS[COMP_CWORD]} words=
  case "$COMP_CWORD ${COMP_WORDS[*]:1:COMP_CWORD-1}" in
    '1 ') words='minutes record serve download card view totals chart speeds show match format upgrade state demo help --help --version' ;;
    '2 minutes') words=2009 ;;
    '2 serve') words='--hex packets card' ;;
    '3 serve card') words='a b' ;;
    '2 match') words=all ;;
    '2 download') words='noisy packets' ;;
    '2 card') words='a b' ;;
    '2 view') words='last manual' ;;
    '2 totals' | '2 chart' | '2 speeds' | '2 show') words=last ;;
    '2 format') words='unit a b' ;;
  esac
  mapfile -t COMPREPLY < <(compgen -W "$words" -- "$word")
}

# Where no word is to come, as behind `<` and `>` and where a file may be named, bash completes the names of files.
complete -o default -F _tacho tacho
