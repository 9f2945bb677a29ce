# Completion of pkg for bash: commands, their options, and operands as the repository's catalog or the image's records have them.
# To use it: . docs/pkg.bash; where pkg is installed, bash-completion finds it by its name.
# Names that a repository or an image holds are only compared and shown here, never expanded: of them those with plain letters alone.

_pkg_commands="image-create install update uninstall fix verify list contents history search rebuild-index change-facet change-variant set-mediator unset-mediator avoid unavoid freeze unfreeze set-publisher unset-publisher update-format gen"

# Behind mogrify stand -d and a folder, and then two files of that folder.
_pkg_mogrify() {
  case ${#words[@]} in
    3) _pkg_take < <(echo -d) ;;
    4) _pkg_folders d ;;
    5 | 6)
      compopt -o filenames 2>/dev/null
      local folder=${words[3]}
      case $folder in '~/'*) folder=$HOME/${folder:2} ;; esac
      mapfile -t COMPREPLY < <(cd -- "$folder" 2>/dev/null && compgen -f -- "$word") ;;
  esac
}

# Behind send stand -s and the repository, -d and a folder, and then create with a publisher, or publish with a name and a file of that folder.
_pkg_send() {
  case ${#words[@]}:${words[6]:-} in
    3:*) _pkg_take < <(echo -s) ;;
    5:*) _pkg_take < <(echo -d) ;;
    4:* | 6:*) _pkg_folders d ;;
    7:*) _pkg_take < <(printf '%s\n' create publish) ;;
    9:publish)
      compopt -o filenames 2>/dev/null
      local folder=${words[5]}
      case $folder in '~/'*) folder=$HOME/${folder:2} ;; esac
      mapfile -t COMPREPLY < <(cd -- "$folder" 2>/dev/null && compgen -f -- "$word") ;;
  esac
}

# The options of a command.
_pkg_options() {
  case $1 in
    image-create) echo -p --variant --facet --actuator ;;
    install | update) echo --accept --reject --search-limit ;;
    uninstall) echo --search-limit ;;
    contents) echo -m ;;
    change-facet | change-variant) echo --accept ;;
    set-mediator) echo -V -I ;;
    set-publisher) echo --search-first --sticky --non-sticky ;;
  esac
}

# Whether a value stands behind an option.
_pkg_has_value() {
  case $1 in -R | -s | -p | --variant | --facet | --actuator | --reject | --search-limit | -V | -I) return 0 ;; *) return 1 ;; esac
}

# Whether the second option may stand behind the first one.
_pkg_may_follow() {
  case $1 in
    --variant | --facet | --reject) return 0 ;;
    --sticky | --non-sticky) [ "$2" != --sticky ] && [ "$2" != --non-sticky ] ;;
    *) [ "$1" != "$2" ] ;;
  esac
}

# How many operands a command takes.
_pkg_operands() {
  case $1 in
    contents | search | change-variant | set-mediator | unset-mediator | set-publisher | unset-publisher | gen) echo 1 ;;
    install | update | uninstall | change-facet | avoid | unavoid | freeze | unfreeze) echo 1000000 ;;
    *) echo 0 ;;
  esac
}

# The words of a line, without their quotes and backslashes, into `words`: the last one is the one that is being written.
_pkg_read() {
  local line=$1 letter quote= word= stands= i
  words=()
  for ((i = 0; i < ${#line}; i++)); do
    letter=${line:i:1}
    case $quote$letter in
      \\?) word+=$letter quote= ;;
      \'\' | \"\") quote= ;;
      \'? | \"[!\\]) word+=$letter ;;
      \"\\) case ${line:i+1:1} in [\"\\\$\`]) word+=${line:++i:1} ;; *) word+=$letter ;; esac ;;
      \\ | \' | \") quote=$letter stands=1 ;;
      ' ' | $'\t') [ -z "$stands" ] || words+=("$word"); word= stands= ;;
      *) word+=$letter stands=1 ;;
    esac
  done
  words+=("$word")
}

# Names from their percent-encoded forms, a line each.
_pkg_plain() { sed -e 's#%2[Ff]#/#g' -e 's/%2[Bb]/+/g' -e 's/%2[Aa]/*/g'; }

# The stems of the catalog of the image's publisher, or of all.
_pkg_offered() {
  local own
  own=$(sed -n 's/^publisher \([A-Za-z0-9_.+-]*\)$/\1/p' "$image/var/pkg/image" 2>/dev/null)
  grep -ohE '"[A-Za-z0-9][A-Za-z0-9_./+-]*" *: *\[' "$repository"/publisher/${own:-*}/catalog/catalog.base.C 2>/dev/null | sed -e 's/^"//' -e 's/".*//'
}

# The stems of the installed packages, in either format of the records.
_pkg_installed() {
  ls -1 "$image/var/pkg/packages" 2>/dev/null | _pkg_plain
  sed -n 's/@.*//p' "$image/var/pkg/installed" 2>/dev/null
}

# What the installed manifests have of this form, by `grep -E`.
_pkg_in_manifests() { grep -rohE -- "$1" "$image/var/pkg/packages" "$image/var/pkg/manifests" 2>/dev/null; }

_pkg_mediators() {
  cut -d' ' -f1 "$image/var/pkg/mediators" 2>/dev/null | _pkg_plain
  [ "$1" = set ] && _pkg_in_manifests ' mediator=[A-Za-z0-9_.+-]+' | cut -d= -f2
}

_pkg_publishers() {
  sed -n -e 's/^publisher //p' -e 's/^origin \([^ ]*\) .*/\1/p' "$image/var/pkg/image" 2>/dev/null
  [ "$1" = unset ] || ls -1 "$repository/publisher" 2>/dev/null
}

# What may stand in place of an operand, or of an option's value: a line each. One that ends with `=` or `@` isn't whole yet.
_pkg_told() {
  local stem version
  case $1 in
    install | avoid | --reject) _pkg_offered ;;&
    update | uninstall | contents | --reject) _pkg_installed ;;
    unavoid) cat "$image/var/pkg/avoid" 2>/dev/null ;;
    unfreeze) sed -n 's/@.*//p' "$image/var/pkg/freeze" 2>/dev/null ;;
    freeze)
      case $word in
        *@*)
          stem=${word%%@*}
          version=$(sed -n '2s/^version //p' "$image/var/pkg/packages/$(printf %s "$stem" | sed -e 's#/#%2F#g' -e 's/+/%2B/g')" 2>/dev/null)
          [ -z "$version" ] || printf '%s@%s\n' "$stem" "$version"
          grep "^$stem@" "$image/var/pkg/installed" 2>/dev/null ;;
        *) _pkg_installed | sed 's/$/@/' ;;
      esac ;;
    change-facet | --facet)
      case $word in
        facet.*=*) printf '%s\n' "${word%%=*}="{true,false}; [ "$1" = --facet ] || echo "${word%%=*}=none" ;;
        *) _pkg_in_manifests ' facet\.[A-Za-z0-9_./+-]+=' | sed 's/^ //'; sed -n 's/^facet \(.*\) .*/facet.\1=/p' "$image/var/pkg/image" 2>/dev/null | _pkg_plain ;;
      esac ;;
    change-variant | --variant) _pkg_in_manifests ' variant\.[A-Za-z0-9_./+-]+=[A-Za-z0-9_./+-]+' | sed 's/^ //' ;;
    set-mediator) _pkg_mediators set ;;
    unset-mediator) _pkg_mediators unset ;;
    -V) _pkg_in_manifests ' mediator-version=[0-9.]+' | cut -d= -f2 ;;
    -I) _pkg_in_manifests ' mediator-implementation=[A-Za-z0-9_.+-]+' | cut -d= -f2 ;;
    set-publisher | -p) _pkg_publishers set ;;
    unset-publisher) _pkg_publishers unset ;;
  esac | grep -E '^[][A-Za-z0-9_./+*@:,=-]+$' | LC_ALL=C sort -u
}

# Takes those of the lines that begin as the word does; of names of packages also what stands behind a `/`, where none does.
_pkg_take() {
  local line lines=() more=()
  mapfile -t lines
  for line in "${lines[@]}"; do
    case $line in
      "$word"*) COMPREPLY+=("$line") ;;
      */"$word"*) more+=("${line##*/"$word"}") ;;
    esac
  done
  case $1 in install | update | uninstall | contents | --reject) ;; *) return ;; esac
  [ ${#COMPREPLY[@]} -gt 0 ] || [ ${#more[@]} -eq 0 ] || COMPREPLY=("${more[@]/#/$word}")
}

# Readline replaces what stands behind the last `=`, `@` or `:` of the word alone, so that is what it is given.
_pkg_cut() {
  local words piece=${COMP_WORDS[COMP_CWORD]} i
  case $piece in = | @ | : | ==) piece= ;; esac
  _pkg_read "$piece"
  local front=${word%"${words[-1]}"}
  for i in "${!COMPREPLY[@]}"; do
    case ${COMPREPLY[i]} in
      *[=@]) compopt -o nospace 2>/dev/null ;;
    esac
    COMPREPLY[i]=${COMPREPLY[i]#"$front"}
  done
}

_pkg_folders() {
  compopt -o filenames 2>/dev/null
  mapfile -t COMPREPLY < <(compgen -"$1" -- "$word")
}

_pkg() {
  local words word image=${PKG_IMAGE:-} repository=${PKG_REPOSITORY:-} command= place=0 operands=0 before= i one options=() given=()
  COMPREPLY=()
  if [ -n "${COMP_LINE:-}" ]; then
    _pkg_read "${COMP_LINE:0:COMP_POINT}"
  else
    words=("${COMP_WORDS[@]:0:COMP_CWORD+1}")
  fi
  word=${words[-1]}
  [ ${#words[@]} -lt 3 ] || [ "${words[1]}" != mogrify ] || { _pkg_mogrify; return; }
  [ ${#words[@]} -lt 3 ] || [ "${words[1]}" != send ] || { _pkg_send; return; }
  for ((i = 1; i < ${#words[@]} - 1; i++)); do
    one=${words[i]} before=
    if [ -z "$command" ]; then
      case $one in
        -R) image=${words[++i]} before=$one ;;
        -s) repository=${words[++i]} before=$one ;;
        -*) return ;;
        *) command=$one place=$i ;;
      esac
    elif [ "$operands" = 0 ] && [ "${one:0:1}" = - ]; then
      given+=("$one")
      ! _pkg_has_value "$one" || { ((++i)); before=$one; }
    else
      ((operands++))
    fi
    # The value that is being written is the last word.
    [ "$i" -ge $((${#words[@]} - 1)) ] || before=
  done
  case $image in '~/'*) image=$HOME/${image:2} ;; esac
  case $repository in '~/'*) repository=$HOME/${repository:2} ;; esac

  case $before in
    '') ;;
    -R | -s) _pkg_folders d; return ;;
    --actuator) _pkg_folders f; return ;;
    *) _pkg_take "$before" < <(_pkg_told "$before"); _pkg_cut; return ;;
  esac
  if [ -z "$command" ]; then
    options=($_pkg_commands)
    [[ " ${words[*]:1} " == *" -R "* ]] || options+=(-R)
    [[ " ${words[*]:1} " == *" -s "* ]] || options+=(-s)
    [ ${#words[@]} -gt 2 ] || options+=(mogrify send --help --version)
    _pkg_take < <(printf '%s\n' "${options[@]}")
    return
  fi
  if [ "$operands" = 0 ]; then
    for one in $(_pkg_options "$command"); do
      for i in "${given[@]}"; do _pkg_may_follow "$i" "$one" || continue 2; done
      options+=("$one")
    done
    [ "$place" != 1 ] || [ ${#words[@]} != 3 ] || options+=(--help)
    [ ${#options[@]} = 0 ] || _pkg_take < <(printf '%s\n' "${options[@]}")
  fi
  [ "$operands" -lt "$(_pkg_operands "$command")" ] || return 0
  [ "$command" != set-mediator ] || [ ${#given[@]} -gt 0 ] || return 0
  [ "${word:0:1}" = - ] || _pkg_take "$command" < <(_pkg_told "$command")
  _pkg_cut
}
complete -F _pkg pkg ./pkg
