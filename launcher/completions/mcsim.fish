# Completions of mcsim for fish.
complete -c mcsim -f
complete -c mcsim -s h -l help -d 'print the help'
complete -c mcsim -s n -l horizon -x -d 'the last moment of the run, 0 to 2^40'
complete -c mcsim -s w -l workers -x -d 'how many workers may run cores, 1 to 64'
complete -c mcsim -l tick-us -x -d 'the length of a tick in microseconds'
complete -c mcsim -s s -l show -x -a 'schedule reports both' -d 'what is written'
complete -c mcsim -s V -l version -d 'say what runs, and of which sources it was built'
complete -c mcsim -l install -d 'install below PREFIX'
complete -c mcsim -l uninstall -d 'take away what was installed below PREFIX'
complete -c mcsim -l prove -d 'prove and build the program'
complete -c mcsim -k -a "(__fish_complete_path (commandline -ct) | string match -r '.*(?:\.toml|/)(?:\t.*)?\$')"
