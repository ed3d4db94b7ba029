# Completes the words of amoebot and amoebot-why in fish.

set -l words run interleave replay check measure show sample renew rewind rounds elect tickets
set -l programs hexagon erosion line
for command in amoebot amoebot-why
    complete -c $command -f
    complete -c $command -n __fish_use_subcommand -a "$words"
    complete -c $command -n '__fish_seen_subcommand_from show' -a "$programs"
end
