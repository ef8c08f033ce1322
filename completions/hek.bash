# Completions of hek for bash, as `hek completions bash` prints them. Read them with `source`, or put them into
# ~/.local/share/bash-completion/completions under the name hek.
_hek() {
    local word=${COMP_WORDS[COMP_CWORD]} before=${COMP_WORDS[COMP_CWORD - 1]} command=${COMP_WORDS[1]} words="" files=""
    COMPREPLY=()
    # bash parts a word at `=`
    if [ "$word" = "=" ]; then
        before="$before=" word=""
    elif [ "$before" = "=" ]; then
        before="${COMP_WORDS[COMP_CWORD - 2]}="
    fi
    [ "$COMP_CWORD" -eq 1 ] && command="" before=hek
    case "$command $before" in
    " hek") words="run debug page permute check history drive threads word release asm dis completions man help --help --version" ;;
    "help help") words="run debug page permute check history drive threads word release asm dis completions man " ;;
    "run --explain=") words="always never" ;;
    "run --color=") words="always never auto" ;;
    "run --state-at" | "run --state-at=") return ;;
    "run --why=") words="reasons rules" ;;
    "run --level" | "run --level=") words="serializable repeatable snapshot" ;;
    "debug --explain=") words="always never" ;;
    "debug --color=") words="always never auto" ;;
    "debug --level" | "debug --level=") words="serializable repeatable snapshot" ;;
    "page --explain=") words="always never" ;;
    "page --level" | "page --level=") words="serializable repeatable snapshot" ;;
    "page --output" | "page -o") compopt -o default; return ;;
    "page --from" | "page --from=") return ;;
    "page --to" | "page --to=") return ;;
    "page --title" | "page --title=") return ;;
    "page --lesson" | "page --lesson=") return ;;
    "page --previous" | "page --previous=") return ;;
    "page --next" | "page --next=") return ;;
    "page --grain" | "page --grain=") words="move split event" ;;
    "page --limit" | "page --limit=") return ;;
    "permute --explain=") words="always never" ;;
    "permute --level" | "permute --level=") words="serializable repeatable snapshot" ;;
    "permute --grain" | "permute --grain=") words="move split event" ;;
    "permute --limit" | "permute --limit=") return ;;
    "permute --part" | "permute --part=") return ;;
    "permute --jobs" | "permute --jobs=") return ;;
    "permute --order" | "permute --order=") return ;;
    "permute --find" | "permute --find=") return ;;
    "check --explain=") words="always never" ;;
    "check --level" | "check --level=") words="serializable repeatable snapshot" ;;
    "history --explain=") words="always never" ;;
    "history --level" | "history --level=") words="serializable repeatable snapshot parallel-snapshot prefix causal read-atomic monotonic-view read-committed read-uncommitted own monotonic-reads read-your-writes monotonic-writes writes-follow-reads guarantees" ;;
    "history --order" | "history --order=") words="any versions real versions,real" ;;
    "history --effort" | "history --effort=") return ;;
    "history --all=") words="each counts" ;;
    "history --order-out" | "history --order-out=") compopt -o default; return ;;
    "drive --explain=") words="always never" ;;
    "drive --color=") words="always never auto" ;;
    "drive --why=") words="reasons rules" ;;
    "drive --level" | "drive --level=") words="serializable repeatable snapshot" ;;
    "threads --explain=") words="always never" ;;
    "threads --turns" | "threads --turns=") return ;;
    "threads --repeat" | "threads --repeat=") return ;;
    "threads --seed" | "threads --seed=") return ;;
    "threads --level" | "threads --level=") words="serializable repeatable snapshot" ;;
    "word --clock" | "word --clock=") return ;;
    "word --txns" | "word --txns=") return ;;
    "word --readers" | "word --readers=") return ;;
    "asm --explain=") words="always never" ;;
    "dis --explain=") words="always never" ;;
    "completions completions") words="bash zsh fish words" ;;
    esac
    if [ -n "$words" ]; then
        mapfile -t COMPREPLY < <(compgen -W "$words" -- "$word")
        return
    fi
    case "$command" in
    run) words="--text --image --explain --color --state --state-at --why --changes --history --moves --auto --level --json --help" files=yes ;;
    debug) words="--text --image --explain --color --auto --level --help" files=yes ;;
    page) words="--text --image --explain --level --auto --output --from --to --title --lesson --previous --next --orders --levels --split --grain --limit --machine --json --help" files=yes ;;
    permute) words="--text --image --explain --auto --level --split --grain --limit --part --jobs --each --order --levels --find --stats --add --json --help" files=yes ;;
    check) words="--text --image --explain --auto --level --why --summary --all --json --help" files=yes ;;
    history) words="--explain --level --levels --sessions --no-sessions --guarantees --order --effort --all --order-out --json --help" files=yes ;;
    drive) words="--text --image --explain --color --why --changes --state --ends --auto --level --json --help" files=yes ;;
    threads) words="--text --image --explain --turns --repeat --seed --auto --level --json --help" files=yes ;;
    word) words="--changes --clock --txns --readers --json --help" ;;
    release) words="--help" ;;
    asm) words="--explain --help" files=yes ;;
    dis) words="--text --image --explain --help" files=yes ;;
    completions) words="--help" ;;
    man) words="--help" ;;
    esac
    case "$word" in
    -*) mapfile -t COMPREPLY < <(compgen -W "$words" -- "$word") ;;
    *) [ -z "$files" ] || compopt -o default ;;
    esac
}
complete -F _hek hek
