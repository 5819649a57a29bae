# fish completion for fmp4
complete -c fmp4 -f
complete -c fmp4 -n __fish_use_subcommand -a split -d 'write the stream with shorter fragments'
complete -c fmp4 -n __fish_use_subcommand -a boxes -d 'list the boxes'
complete -c fmp4 -n __fish_use_subcommand -a samples -d 'list the samples'
complete -c fmp4 -n __fish_use_subcommand -a fragments -d 'list the tracks and the fragments'
complete -c fmp4 -n __fish_use_subcommand -a check -d 'check the stream'
set -l commands split boxes samples fragments check
complete -c fmp4 -n "__fish_seen_subcommand_from $commands; and not __fish_contains_opt copy" -l copy -x -d 'the most bytes of a read, 4096 to 1048576'
complete -c fmp4 -n "__fish_seen_subcommand_from $commands; and not __fish_contains_opt max-held" -l max-held -x -d 'the most memory for the stream'
complete -c fmp4 -n "__fish_seen_subcommand_from split; and not __fish_contains_opt samples" -l samples -x -d 'the most samples of a fragment'
complete -c fmp4 -n "__fish_seen_subcommand_from split; and not __fish_contains_opt bytes" -l bytes -x -d 'the most bytes of media of a fragment'
complete -c fmp4 -n "__fish_seen_subcommand_from split; and not __fish_contains_opt duration" -l duration -x -d 'the most milliseconds of a fragment'
complete -c fmp4 -n "__fish_seen_subcommand_from split; and not __fish_contains_opt index" -l index -d 'write an sidx before each run'
complete -c fmp4 -n "__fish_seen_subcommand_from split; and not __fish_contains_opt sync keyframes" -l sync -d 'begin a fragment at each sync sample'
complete -c fmp4 -n "__fish_seen_subcommand_from split; and not __fish_contains_opt sync keyframes" -l keyframes -d 'begin a fragment at each group of pictures'
