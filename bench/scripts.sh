# The scripts whose runs are timed: read by the other files here.

# blocks COUNT PLACE: a thread's code
blocks() {
    awk -v count="$1" -v at="$2" 'BEGIN {
        print "set r1 1"
        for (i = 0; i < count; i++)
            print "_ITM_beginTransaction r0 -\n_ITM_RU8 r2 " at "\nadd r2 r2 r1\n_ITM_WU8 " at " r2\n_ITM_commitTransaction"
    }'
}

# side_by_side THREADS WORDS EVENTS: a thread has more blocks than its events can end
side_by_side() {
    count=$(($3 / $1 / 6 + 1))
    printf '.memory 256\n.retries 10000\n'
    awk -v threads="$1" -v turns="$(($3 / $1 / 2))" 'BEGIN {
        for (i = 0; i < turns; i++) {
            printf ".schedule"
            for (t = 0; t < threads; t++) printf " " t "x2"
            print ""
        }
    }'
    if [ "$2" = one ]; then
        echo ".thread $1"
        blocks "$count" 0
    else
        thread=0
        while [ "$thread" -lt "$1" ]; do
            echo .thread
            blocks "$count" $((8 * thread))
            thread=$((thread + 1))
        done
    fi
}

# reads BLOCKS READS WORDS: a thread's blocks of so many reads each, in turn of so many words
reads() {
    awk -v blocks="$1" -v reads="$2" -v words="$3" 'BEGIN {
        for (b = 0; b < blocks; b++) {
            print "_ITM_beginTransaction r0 -"
            for (i = 0; i < reads; i++) print "_ITM_RU8 r1 " 8 * (i % words)
            print "_ITM_commitTransaction"
        }
    }'
}
