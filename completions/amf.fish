# Completes the words of amf. completions/make made this file of completions/words.txt.
complete -c amf -f
complete -c amf -n 'test (count (commandline -opc)) -eq 1' -a show -d 'list what is in a value, packet or file'
complete -c amf -n 'string match -q show -- (commandline -opc)[2]' -l from -x -a 'amf3 amf0 packet sol'
complete -c amf -n 'test (count (commandline -opc)) -eq 1' -a json -d 'write it as JSON'
complete -c amf -n 'string match -q json -- (commandline -opc)[2]' -l from -x -a 'amf3 amf0 packet sol'
complete -c amf -n 'string match -q json -- (commandline -opc)[2]' -l layout -x -a 'lines compact'
complete -c amf -n 'test (count (commandline -opc)) -eq 1' -a bytes -d 'write the AMF that a JSON text means'
complete -c amf -n 'test (count (commandline -opc)) -eq 1' -a check -d 'find out whether it is valid'
complete -c amf -n 'string match -q check -- (commandline -opc)[2]' -l from -x -a 'amf3 amf0 packet sol'
complete -c amf -n 'test (count (commandline -opc)) -eq 1' -a canon -d 'write its canonical encoding'
complete -c amf -n 'string match -q canon -- (commandline -opc)[2]' -l from -x -a 'amf3 amf0 packet sol'
complete -c amf -n 'string match -q canon -- (commandline -opc)[2]' -l to -x -a 'amf3 amf0 packet sol'
complete -c amf -n 'test (count (commandline -opc)) -eq 1' -a same -d 'compare two values'
complete -c amf -n 'test (count (commandline -opc)) -eq 1' -a gen -d 'make a graph to try things on'
complete -c amf -n 'string match -q gen -- (commandline -opc)[2]' -l seed -x
complete -c amf -n 'string match -q gen -- (commandline -opc)[2]' -l size -x
complete -c amf -n 'test (count (commandline -opc)) -eq 1' -a flv -d 'list, drop or set the metadata of a Flash video'
complete -c amf -n 'string match -q flv -- (commandline -opc)[2]' -l do -x -a 'show drop set'
complete -c amf -n 'test (count (commandline -opc)) -eq 1' -a rtmp -d 'list a recorded RTMP connection, or cut it anew'
complete -c amf -n 'string match -q rtmp -- (commandline -opc)[2]' -l do -x -a 'show rechunk'
complete -c amf -n 'string match -q rtmp -- (commandline -opc)[2]' -l size -x
complete -c amf -n 'test (count (commandline -opc)) -eq 1' -a call -d 'call a gateway'
complete -c amf -n 'string match -q call -- (commandline -opc)[2]' -l port -x
complete -c amf -n 'string match -q call -- (commandline -opc)[2]' -l target -x
complete -c amf -n 'test (count (commandline -opc)) -eq 1' -a listen -d 'poll a gateway'
complete -c amf -n 'string match -q listen -- (commandline -opc)[2]' -l port -x
complete -c amf -n 'string match -q listen -- (commandline -opc)[2]' -l destination -x
complete -c amf -n 'string match -q listen -- (commandline -opc)[2]' -l polls -x
complete -c amf -n 'test (count (commandline -opc)) -eq 1' -a serve -d 'answer calls and messages over HTTP'
complete -c amf -n 'string match -q serve -- (commandline -opc)[2]' -l port -x
complete -c amf -n 'string match -q serve -- (commandline -opc)[2]' -l workers -x
complete -c amf -n 'string match -q serve -- (commandline -opc)[2]' -l each -x
complete -c amf -n 'test (count (commandline -opc)) -eq 1' -a version -d 'write the version'
