# Completion of dm and its scripts for bash. Source it, or put it as `dm` into share/bash-completion/completions, and links to it for the scripts.

_dm()
{
  local word=${COMP_WORDS[COMP_CWORD]} before=${COMP_WORDS[COMP_CWORD - 1]} command=${COMP_WORDS[1]} options i
  COMPREPLY=()
  if [ "$COMP_CWORD" -eq 1 ] || { [ "$COMP_CWORD" -eq 2 ] && [ "$command" = help ]; }; then
    options='apply check checkout init log obliterate rollback run send upgrade'
    [ "$COMP_CWORD" -eq 1 ] && options="$options help --help --version"
    mapfile -t COMPREPLY < <(compgen -W "$options" -- "$word")
    return
  fi
  case $command in
    apply) options='--base --repository --mirror --no-wait --dry-run --bundle --quiet --json --hash --all-kinds --six-kinds --explain --skip --stream' ;;
    check) options='--paths --json --hash --all-kinds --explain' ;;
    checkout) options='--mirror --no-wait --all-names' ;;
    init) options='--mirror --base --repository --all-kinds --six-kinds --names --skip-special --json --no-wait --explain' ;;
    log) options='-n -v --mirror --base --repository --last --reverse --verbose --places --json --rests --count --context --kinds --all-kinds --no-wait' ;;
    obliterate) options='-o --mirror --output --with-dependents --dry-run --json --no-wait --explain' ;;
    rollback) options='--mirror --author --date --name --log --json --no-wait' ;;
    run) options='--mirrors --bound --base --repository --explain --skip' ;;
    send) options='-o --output --mirror --base --repository --first --minimal --all-kinds --json --no-wait --explain --to' ;;
    upgrade) options='--mirror --no-wait' ;;
    *) return ;;
  esac
  case $before in
    --base | --repository | --mirror | --names | --to | --output | -o)
      _dm_files -f "$word"
      return ;;
    --mirrors | --bound | --first | --last | -n | --author | --date | --name | --log) return ;;
  esac
  if [[ $word = -* ]]; then
    mapfile -t COMPREPLY < <(compgen -W "$options --help" -- "$word")
    return
  fi
  case $command in
    checkout | init) _dm_files -d "$word" ;;
    # Where `=` parts words, POSTER, `=` and FILE are three words; else FILE is what follows it.
    run)
      if [ "$before" = = ]; then
        _dm_files -f "$word"
      elif [ "$word" = = ]; then
        _dm_files -f ''
      elif [[ $word = *=* ]]; then
        _dm_files -f "${word#*=}"
      fi ;;
    apply | check | log) _dm_files -f "$word" ;;
  esac
}

# The scripts dm-from-darcs, dm-move-on and dm-to-darcs
_dm_script()
{
  local word=${COMP_WORDS[COMP_CWORD]} options=--help
  COMPREPLY=()
  case ${1##*/} in
    dm-from-darcs) options='--six-kinds --move-on --push --help' ;;
    dm-to-darcs) options='--darcs-1 --darcs-2 --update --help' ;;
  esac
  if [[ $word = -* ]]; then
    mapfile -t COMPREPLY < <(compgen -W "$options" -- "$word")
  else
    _dm_files -f "$word"
  fi
}

# _dm_files -f|-d WORD: the files or folders whose names begin so
_dm_files()
{
  compopt -o filenames 2>/dev/null
  mapfile -t COMPREPLY < <(compgen "$1" -- "$2")
}

complete -F _dm dm
complete -F _dm_script dm-from-darcs dm-move-on dm-to-darcs
