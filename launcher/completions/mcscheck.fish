# Completions of mcscheck for fish.
complete -c mcscheck -f
complete -c mcscheck -s h -l help -d 'print the help'
complete -c mcscheck -s n -l horizon -x -d 'the last moment of the run, 0 to 2^40'
complete -c mcscheck -s w -l workers -x -d 'how many workers may run cores, 1 to 64'
complete -c mcscheck -l tick-us -x -d 'the length of a tick in microseconds'
complete -c mcscheck -l forever -d 'what is found for all time'
complete -c mcscheck -l allow-lost -x -d 'lost signals of this notification are no finding'
complete -c mcscheck -l strict -d 'hints and unjudged threads count as found'
complete -c mcscheck -s s -l show -x -a 'findings jobs table both' -d 'what is written'
complete -c mcscheck -l format -x -a 'text csv json pretty' -d 'how it is written'
complete -c mcscheck -l color -x -a 'auto always never' -d 'colours of pretty'
complete -c mcscheck -l rows -d 'pretty shows more rows'
complete -c mcscheck -l why -x -d 'why a round of a thread took so long'
complete -c mcscheck -s V -l version -d 'say what runs, and of which sources it was built'
complete -c mcscheck -l install -d 'install below PREFIX'
complete -c mcscheck -l uninstall -d 'take away what was installed below PREFIX'
complete -c mcscheck -l prove -d 'prove and build the program'
complete -c mcscheck -k -a "(__fish_complete_path (commandline -ct) | string match -r '.*(?:\.toml|/)(?:\t.*)?\$')"
