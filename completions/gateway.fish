# Completion of gateway for fish: lay this file into ~/.config/fish/completions/.

# How many words stand before the one that is completed, the program's name among them.
function __gateway_words
    count (commandline --tokenize --cut-at-cursor --current-process)
end

# The files of the current folder that end in the argument and have a name that gateway takes.
function __gateway_files
    for file in *$argv[1]
        test -f $file; and string match --regex '^[A-Za-z0-9_.-]{1,64}$' -- $file
    end
end

complete --command gateway --no-files
complete --command gateway --condition 'test (__gateway_words) = 1' --arguments run \
    --description 'Forward the messages of the configured logs'
complete --command gateway --condition 'test (__gateway_words) = 1' --arguments check \
    --description 'Say whether the configuration has a fault or a conflict'
complete --command gateway --arguments '(__gateway_files .toml)' \
    --condition 'test (__gateway_words) = 2; and __fish_seen_subcommand_from run check'
complete --command gateway --arguments '(__gateway_files .report)' \
    --condition 'test (__gateway_words) = 3; and __fish_seen_subcommand_from run'
