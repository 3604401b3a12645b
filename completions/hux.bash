# What bash completes of hux: written by checks/completions --write, of the help of hux.
_hux() {
    local word=${COMP_WORDS[COMP_CWORD]} words=""
    if [ "$COMP_CWORD" -eq 1 ]; then
        mapfile -t COMPREPLY < <(compgen -W "check show core conform wit link unbundle plug play call live stub explain diff help --json --quiet --help --version" -- "$word")
        return
    fi
    case "${COMP_WORDS[1]}" in
        check) words="--json --quiet --help" ;;
        show) words="--json --quiet --help" ;;
        core) words="--json --quiet --help" ;;
        conform) words="--wit --world --features --json --quiet --help" ;;
        wit) words="--world --features --json --quiet --help" ;;
        link) words="--out --export --open --serve --nearest --mermaid --json --quiet --help" ;;
        unbundle) words="--out --json --quiet --help" ;;
        plug) words="--plug --out --serve --json --quiet --help" ;;
        play) words="--script --serve --nearest --values --mermaid --messages --json --quiet --help" ;;
        call) words="--script --serve --nearest --json --quiet --help" ;;
        live) words="--serve --nearest --record --limit --pages --values --quiet --help" ;;
        stub) words="--out --serve --nearest --caller --wit --world --features --json --quiet --help" ;;
        explain) words="--json --quiet --help" ;;
        diff) words="--world --features --json --quiet --help" ;;
        help) words="check show core conform wit link unbundle plug play call live stub explain diff" ;;
    esac
    case "${COMP_WORDS[1]} $word" in
        help* | *" -"*) mapfile -t COMPREPLY < <(compgen -W "$words" -- "$word") ;;
        "explain "*) mapfile -t COMPREPLY < <(compgen -W "trap misuse decode file text-file limit write leb signed name type handle text show shim fit valid link bundle bundling stub wit world conform script line print value seat values call Arguments BadAnnotatedName BadAnnotation BadCase BadChar BadEscape BadFragment BadFront BadHex BadLastBits BadName BadNumber BadPages BadPreamble BadText BadToken BadUtf8 BadVersion BorrowInResult BorrowsLeft Busy CalleeClosed Closed Component CoreShape Cycle DifferentResource DifferentType Duplicate DuplicateName Empty EmptyType EngineMemory Full GuestBounds Idle IllFormed Limit MayNotLeave Misaligned Missing MissingArgument MissingExport Misuse NameTwice NeedsMemory NeedsRealloc NoComponent NoFunction NoGuest NoHandle NoInstance NoProvider NoResource NoRoom NoSuchComponent NoSuchFunc NoSuchIndex NoSuchInterface NoSuchPart NoSuchShim NoSuchType NoSuchWorld NotAModule NotAStatement NotExact NotGuestFunction NotImported NotInWorld NotLinked NotOneChar NotOwnResource NotOwned NotSpellable NotUtf8 NotValid OptionNotAllowed OptionTwice OtherFiles OtherFront OtherFunc OtherNumber OtherType OutOfRange Overlap PagesFirst PagesTwice PointerBounds Read Results SecondMemory SizeMismatch StackFull StillLent StoresLatin1 Surplus TableFull TooDeep TooLarge TooLong TooMany TooManyFlags TooManyParts Trapped Truncated TwoProviders Unexpected UnknownCode UnknownFunction UnknownName Unreachable Unsupported Write WrongLength WrongResource WrongSort WrongType WrongTypes" -- "$word") ;;
        *) mapfile -t COMPREPLY < <(compgen -f -- "$word") ;;
    esac
}
complete -o filenames -F _hux hux
