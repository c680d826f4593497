# Completion of the warning desk's programs for bash.

_warn_zones='Atlantic Eastern Central Mountain Arizona Pacific Alaska Hawaii UTC'

_warn_reply() { mapfile -t COMPREPLY < <(compgen "$@" -- "${COMP_WORDS[COMP_CWORD]}"); }

# The words behind a journal's path.
_warn_serve() {
  case ${COMP_WORDS[COMP_CWORD - 1]} in
    --port) _warn_reply -W 8470 ;;
    --workers) _warn_reply -W '4 8 16' ;;
    --connections) _warn_reply -W 1000000 ;;
    *) _warn_reply -W '--port --workers --connections' ;;
  esac
}

# OFFICE, CLASS and STAMP, of which the first is the word at $1.
_warn_texts() {
  case $((COMP_CWORD - $1)) in
    1) _warn_reply -W 'O T E X' ;;
    2) _warn_reply -W "$(date -u +%y%m%dT%H%MZ)" ;;
  esac
}

_warn() {
  COMPREPLY=()
  if [ "$COMP_CWORD" = 1 ]; then
    _warn_reply -W 'check-settings init script serve board export upgrade archive stats notices follow dry drill now explain help version'
    return
  fi
  case ${COMP_WORDS[1]} in
    check-settings) [ "$COMP_CWORD" != 2 ] || _warn_reply -f ;;
    init) [ "$COMP_CWORD" -gt 3 ] || _warn_reply -f ;;
    script|export|upgrade) [ "$COMP_CWORD" != 2 ] || _warn_reply -f ;;
    board)
      case $COMP_CWORD in
        2) _warn_reply -f ;;
        3) _warn_reply -W "$(date -u +%y%m%dT%H%MZ)" ;;
      esac ;;
    serve) if [ "$COMP_CWORD" = 2 ]; then _warn_reply -f; else _warn_serve; fi ;;
    archive|stats) _warn_texts 2 ;;
    notices) [ "$COMP_CWORD" != 3 ] || _warn_reply -W "$_warn_zones" ;;
    follow) case $COMP_CWORD in 3) _warn_reply -W 8470 ;; 4) _warn_reply -W 'O T E X' ;; esac ;;
    dry) [ "$COMP_CWORD" != 3 ] || _warn_reply -W "$(date -u +%y%m%dT%H%MZ)" ;;
    now) [ "$COMP_CWORD" != 2 ] || _warn_reply -W 'now today tomorrow' ;;
    help) [ "$COMP_CWORD" != 2 ] || _warn_reply -W 'warn_main warn_archive warn_stats warn_follow watch_notice' ;;
  esac
}

_warn_main() {
  COMPREPLY=()
  case $COMP_CWORD in
    1) _warn_reply -f ;;
    2) _warn_reply -W 'init script serve export board upgrade dry drill' ;;
    *)
      case ${COMP_WORDS[2]} in
        serve) _warn_serve ;;
        board) if [ "$COMP_CWORD" = 3 ]; then _warn_reply -W --at; elif [ "$COMP_CWORD" = 4 ]; then _warn_reply -W "$(date -u +%y%m%dT%H%MZ)"; fi ;;
        dry) [ "$COMP_CWORD" != 4 ] || _warn_reply -W "$(date -u +%y%m%dT%H%MZ)" ;;
      esac ;;
  esac
}

_warn_archive() { COMPREPLY=(); _warn_texts 1; }

_warn_follow() {
  COMPREPLY=()
  case $COMP_CWORD in
    2|3) _warn_texts 1 ;;
    4) _warn_reply -W 8470 ;;
    5) _warn_reply -W '100 10000 100000' ;;
  esac
}

_watch_notice() { COMPREPLY=(); [ "$COMP_CWORD" != 2 ] || _warn_reply -W "$_warn_zones"; }

complete -o filenames -F _warn warn
complete -o filenames -F _warn_main warn_main
complete -F _warn_archive warn_archive warn_stats
complete -F _warn_follow warn_follow
complete -F _watch_notice watch_notice
