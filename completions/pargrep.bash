# Completes the words of pargrep(1) in bash.
_pargrep() {
  local current=${COMP_WORDS[COMP_CWORD]} before=${COMP_WORDS[COMP_CWORD - 1]}
  local -a options=(
    -A --after-context= -B --before-context= -C --context= -D --devices= -d --directories= -E --extended-regexp -F
    --fixed-strings -G --basic-regexp -H --with-filename -L --files-without-match -T --initial-tab -U --binary -V
    --version -Z --null -a --text -b --byte-offset -c --count -e --regexp= -f --file= -h --no-filename -i -y
    --ignore-case --no-ignore-case -l --files-with-matches -m --max-count= -n --line-number -o --only-matching -q
    --quiet --silent -R --dereference-recursive -r --recursive -s --no-messages -v --invert-match -w --word-regexp
    -x --line-regexp -z --null-data --binary-files= --block= --color= --colour= --exclude= --exclude-dir=
    --exclude-from= --group-separator= --help --include= --label= --line-buffered --no-group-separator --round=
    --workers=
  )
  COMPREPLY=()
  # The option whose value is completed, with `=` where the value is joined to it, and what there is of the value. Where
  # bash cuts words at `=`, as it does unless told otherwise, that is a word of its own; else all stands in one word.
  local option=$before value=$current head=
  if [[ $current == = ]]; then
    option=$before= value=''
  elif [[ $before == = ]]; then
    option=${COMP_WORDS[COMP_CWORD - 2]}=
  elif [[ $current == --*=* ]]; then
    option=${current%%=*}= value=${current#*=} head=${current%%=*}=
  fi
  # Behind `--`, where that is no value itself, each word is an operand.
  local word last=
  for word in "${COMP_WORDS[@]:1:COMP_CWORD - 1}"; do
    [[ $word == -- && $last != = && $last != -[ABCDdefm] ]] && option='' value=$head$value head=''
    last=$word
  done
  local -a asked=(-f)
  case $option in
    '' | -f | --file | --file= | --exclude-from | --exclude-from=) ;;
    --color= | --colour=) asked=(-W "always never auto") ;;
    -d | --directories | --directories=) asked=(-W "read skip recurse") ;;
    -D | --devices | --devices=) asked=(-W "read skip") ;;
    --binary-files | --binary-files=) asked=(-W text) ;;
    -[ABCem] | --after-context | --before-context | --context | --regexp | --max-count | --block | --exclude | \
      --exclude-dir | --group-separator | --include | --label | --round | --workers | --*=)
      return ;;
    *) [[ $current == -* ]] && asked=(-W "${options[*]}") ;;
  esac
  mapfile -t COMPREPLY < <(compgen -P "$head" "${asked[@]}" -- "$value")
  if [[ ${asked[0]} == -f ]]; then
    compopt -o filenames
  elif [[ ${COMPREPLY[0]} == *= ]]; then
    compopt -o nospace
  fi
}
complete -F _pargrep pargrep
