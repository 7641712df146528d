#compdef auction
# Completion of `auction` for zsh: commands, options and file names. Installed as site-functions/_auction.
local -a commands=(
    'solve:find a least-cost assignment of a problem'
    'check:say whether a certificate holds of a problem'
    'hall:find any full assignment, at whatever cost'
    'mail:make the calls of a script on a new mail'
    'help:show the usage'
)
local -a objects=('--objects[how many objects there are, 1 to 20000, of large problems to 4194304]:number of objects:' '--large[take up to 4194304 persons and objects]')

if (( CURRENT == 2 )); then
    _describe command commands
    _arguments '--help[show the usage]' '--version[show the version]'
    return
fi
local command=$words[2]
shift words
(( CURRENT-- ))
case $command in
    solve)
        _arguments $objects '--workers[threads for each kind of shard, 0 to 16]:number of threads:' \
            '--bids[bids of a shard in a phase, 1 to 1000000000000]:number of bids:' '--audit[calls that a trail may note, 0 to 1000000]:number of calls:' \
            '--from[certificate whose prices the auction starts from]:certificate:_files' '--direct[solve by one direct search, without messages]' \
            '--seconds[seconds until a direct search ends, 1 to 1000000]:number of seconds:' '--progress[report how far it has come]' '--help[show the usage]' ':problem:_files'
        ;;
    check) _arguments $objects '--help[show the usage]' ':problem:_files' ':certificate:_files' ;;
    hall) _arguments $objects '--help[show the usage]' ':problem:_files' ;;
    mail) _arguments '--help[show the usage]' ':script:_files' ;;
    help)
        local -a pages=(${commands:#help:*})
        (( CURRENT > 2 )) || _describe command pages
        ;;
esac
