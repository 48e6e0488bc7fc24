# What bash offers where Tab is pressed behind `mapf`, as tools/commands.py makes it of the help of
# the program. `source` it, or put it as ~/.local/share/bash-completion/completions/mapf.

_mapf() {
    local word=${COMP_WORDS[COMP_CWORD]} before=${COMP_WORDS[COMP_CWORD - 1]}
    local command='' offers='' at
    local commands='map scen row rows check bound deps path cut continues optimal run agent tape status lost handover anew help'
    local faults='AgentCount AlreadyMoving AtEnd BadAct BadAgent BadEntry BadEvent BadHeader
        BadLength BadLine BadMagic BadMove BadNode BadNumber BadStart BadTable BadTag BadTape
        BadTear BadTerrain BadVersion BadWalk Broken Damaged Departs FieldCount GoalDiffers
        LeafTooLow LineTooLong LongRow MissingRows NoHeader NoRoom NoSuchAgent NoSuchCell
        NoSuchMessage NoSuchRow NoTape NoVersion NotItsSender NotItsTopic NotMoving NotNewer
        NotOneRun NotSigned NotTight OffMap OpenFailed OtherCount OtherNumber OtherPlan OtherRun
        OutOfGrid OutOfMemory OutOfRange PlanDamaged PlansPart ReadFailed Rotation SameNumber
        ShortRow SizeDiffers StaleTape StartDiffers StoreFailed Swap TapeEmptied TapeExists
        TapeFailed TapeInUse TextAfter TooFewRows TooLarge TooLong TooMany Unfinished UnknownSender
        Vertex Waits WriteFailed WrongAgent WrongPlan'
    COMPREPLY=()
    # bash takes the = of --name=VALUE for a word of its own.
    if [[ $word == = ]]; then
        word=''
    elif [[ $before == = && COMP_CWORD -gt 1 ]]; then
        before=${COMP_WORDS[COMP_CWORD - 2]}
    fi
    for ((at = 1; at < COMP_CWORD; at++)); do
        # Behind this each word is a file or a number.
        [[ ${COMP_WORDS[at]} == -- ]] && return 0
        [[ -z $command && ${COMP_WORDS[at]} != -* ]] && command=${COMP_WORDS[at]}
    done
    case $command:$before in
        map:--block | rows:--from | rows:--to | check:--scen | check:--agents | check:--all | deps:--cell | path:--agent | anew:--without) return 0 ;;
        agent:--tape) mapfile -t COMPREPLY < <(compgen -W 'new kept' -- "$word"); return ;;
    esac
    case $command in
        '') offers="$commands -h --help -V --version" ;;
        map) offers='--block --explain -h --help' ;;
        scen) offers='--explain -h --help' ;;
        row) offers='--explain -h --help' ;;
        rows) offers='--from --to --straight --progress --explain -h --help' ;;
        check) offers='--scen --agents --all --bound --no-rotation --json --explain -h --help' ;;
        bound) offers='--agents --json --explain -h --help' ;;
        deps) offers='--cell --explain -h --help' ;;
        path) offers='--agent --explain -h --help' ;;
        cut) offers='--explain -h --help' ;;
        continues) offers='--explain -h --help' ;;
        optimal) offers='--json --explain -h --help' ;;
        run) offers='--complete --explain -h --help' ;;
        agent) offers='--tape --explain -h --help' ;;
        tape) offers='--explain -h --help' ;;
        status) offers='--json --explain -h --help' ;;
        lost) offers='--explain -h --help' ;;
        handover) offers='--explain -h --help' ;;
        anew) offers='--without --explain -h --help' ;;
        help) offers="$commands faults $faults" ;;
    esac
    # Where a file is due, options are offered to those alone who begin one.
    if [[ $word == -* || -z $command || $command == help ]]; then
        mapfile -t COMPREPLY < <(compgen -W "$offers" -- "$word")
    fi
}

# Where nothing is offered, bash offers files.
complete -o default -F _mapf mapf
