# Starts Python with the words "$@", the first of which is a script. Ctrl-C waits until `start` of starting.py has it end
# the script: Python itself would end with a trace while it starts. If this env cannot let it wait, Ctrl-C is ignored
# until then.
if env --block-signal=INT true 2>/dev/null; then
    exec env --block-signal=INT python3 "$@"
fi
trap '' INT
exec python3 "$@"
