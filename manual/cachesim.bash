# Completions of cachesim and its scripts for bash. Made by checks/make_manual of what help says; not to be edited.

# What can stand in each place of a call, as words, of which <FILE> is any file. With no option, or one that
# takes no value, these are the command's options and what stands without a name.
_cachesim_words() {
    case $1:$2 in
    'cachesim:'*) echo 'run sweep intervals part compare footprint sample drive debug replay help -h --help -V --version' ;;
    'cachesim run:--capacity') echo '' ;;
    'cachesim run:--main') echo '' ;;
    'cachesim run:--small') echo '' ;;
    'cachesim run:--in') echo '' ;;
    'cachesim run:--out') echo '' ;;
    'cachesim run:--period') echo '' ;;
    'cachesim run:--spread') echo 'mixed plain' ;;
    'cachesim run:--format') echo 'lirs arc' ;;
    'cachesim run:--batch') echo '' ;;
    'cachesim run:'*) echo 'lru slru tinylfu-lru tinylfu-slru wtinylfu clairvoyant fifo clock sieve s3-fifo 2q arc caffeine car --capacity --main --small --in --out --period --spread --format --long --batch -h --help' ;;
    'cachesim sweep:--main') echo '' ;;
    'cachesim sweep:--small') echo '' ;;
    'cachesim sweep:--in') echo '' ;;
    'cachesim sweep:--out') echo '' ;;
    'cachesim sweep:--period') echo '' ;;
    'cachesim sweep:--spread') echo 'mixed plain' ;;
    'cachesim sweep:--format') echo 'lirs arc' ;;
    'cachesim sweep:--policy') echo 'lru slru tinylfu-lru tinylfu-slru wtinylfu clairvoyant fifo clock sieve s3-fifo 2q arc caffeine car' ;;
    'cachesim sweep:'*) echo '--main --small --in --out --period --spread --format --long --policy -h --help' ;;
    'cachesim intervals:--capacity') echo '' ;;
    'cachesim intervals:--every') echo '' ;;
    'cachesim intervals:--main') echo '' ;;
    'cachesim intervals:--small') echo '' ;;
    'cachesim intervals:--in') echo '' ;;
    'cachesim intervals:--out') echo '' ;;
    'cachesim intervals:--period') echo '' ;;
    'cachesim intervals:--spread') echo 'mixed plain' ;;
    'cachesim intervals:--format') echo 'lirs arc' ;;
    'cachesim intervals:'*) echo 'lru slru tinylfu-lru tinylfu-slru wtinylfu clairvoyant fifo clock sieve s3-fifo 2q arc caffeine car --capacity --every --inside --main --small --in --out --period --spread --format --long -h --help' ;;
    'cachesim part:--capacity') echo '' ;;
    'cachesim part:--main') echo '' ;;
    'cachesim part:--small') echo '' ;;
    'cachesim part:--in') echo '' ;;
    'cachesim part:--out') echo '' ;;
    'cachesim part:--period') echo '' ;;
    'cachesim part:--spread') echo 'mixed plain' ;;
    'cachesim part:--format') echo 'lirs arc' ;;
    'cachesim part:--first') echo 'lru slru tinylfu-lru tinylfu-slru wtinylfu clairvoyant fifo clock sieve s3-fifo 2q arc caffeine car' ;;
    'cachesim part:--second') echo 'lru slru tinylfu-lru tinylfu-slru wtinylfu clairvoyant fifo clock sieve s3-fifo 2q arc caffeine car' ;;
    'cachesim part:'*) echo '--capacity --main --small --in --out --period --spread --format --long --first --second -h --help' ;;
    'cachesim compare:--capacity') echo '' ;;
    'cachesim compare:--every') echo '' ;;
    'cachesim compare:--main') echo '' ;;
    'cachesim compare:--small') echo '' ;;
    'cachesim compare:--in') echo '' ;;
    'cachesim compare:--out') echo '' ;;
    'cachesim compare:--period') echo '' ;;
    'cachesim compare:--spread') echo 'mixed plain' ;;
    'cachesim compare:--format') echo 'lirs arc' ;;
    'cachesim compare:--first') echo 'lru slru tinylfu-lru tinylfu-slru wtinylfu clairvoyant fifo clock sieve s3-fifo 2q arc caffeine car' ;;
    'cachesim compare:--second') echo 'lru slru tinylfu-lru tinylfu-slru wtinylfu clairvoyant fifo clock sieve s3-fifo 2q arc caffeine car' ;;
    'cachesim compare:'*) echo '--capacity --every --main --small --in --out --period --spread --format --long --first --second -h --help' ;;
    'cachesim footprint:--format') echo 'lirs arc' ;;
    'cachesim footprint:'*) echo '--format --long -h --help' ;;
    'cachesim sample:--rate') echo '1/2 1/4 1/8 1/16 1/32 1/64 1/128 1/256 1/512 1/1024 1/2048 1/4096 1/8192 1/16384 1/32768 1/65536 1/131072 1/262144 1/524288 1/1048576' ;;
    'cachesim sample:--seed') echo '' ;;
    'cachesim sample:--format') echo 'lirs arc' ;;
    'cachesim sample:'*) echo '--rate --seed --format -h --help' ;;
    'cachesim drive:--capacity') echo '' ;;
    'cachesim drive:--main') echo '' ;;
    'cachesim drive:--small') echo '' ;;
    'cachesim drive:--in') echo '' ;;
    'cachesim drive:--out') echo '' ;;
    'cachesim drive:--period') echo '' ;;
    'cachesim drive:--spread') echo 'mixed plain' ;;
    'cachesim drive:--format') echo 'lirs arc' ;;
    'cachesim drive:--workers') echo '' ;;
    'cachesim drive:--stripes') echo '' ;;
    'cachesim drive:--limit') echo '' ;;
    'cachesim drive:'*) echo '--capacity --main --small --in --out --period --spread --format --workers --stripes --limit -h --help' ;;
    'cachesim debug:--capacity') echo '' ;;
    'cachesim debug:--main') echo '' ;;
    'cachesim debug:--small') echo '' ;;
    'cachesim debug:--in') echo '' ;;
    'cachesim debug:--out') echo '' ;;
    'cachesim debug:--period') echo '' ;;
    'cachesim debug:--spread') echo 'mixed plain' ;;
    'cachesim debug:--format') echo 'lirs arc' ;;
    'cachesim debug:--first') echo 'lru slru tinylfu-lru tinylfu-slru wtinylfu clairvoyant fifo clock sieve s3-fifo 2q arc caffeine car' ;;
    'cachesim debug:--second') echo 'lru slru tinylfu-lru tinylfu-slru wtinylfu clairvoyant fifo clock sieve s3-fifo 2q arc caffeine car' ;;
    'cachesim debug:--trace') echo '<FILE>' ;;
    'cachesim debug:'*) echo '--capacity --main --small --in --out --period --spread --format --first --second --trace -h --help' ;;
    'cachesim replay:--capacity') echo '' ;;
    'cachesim replay:--main') echo '' ;;
    'cachesim replay:--small') echo '' ;;
    'cachesim replay:--in') echo '' ;;
    'cachesim replay:--out') echo '' ;;
    'cachesim replay:--period') echo '' ;;
    'cachesim replay:--spread') echo 'mixed plain' ;;
    'cachesim replay:--journal') echo '<FILE>' ;;
    'cachesim replay:--stripes') echo '' ;;
    'cachesim replay:--limit') echo '' ;;
    'cachesim replay:'*) echo '--capacity --main --small --in --out --period --spread --journal --stripes --limit -h --help' ;;
    'cachesim help:'*) echo 'run sweep intervals part compare footprint sample drive debug replay' ;;
    'cachesim-survey:--policy') echo 'lru slru tinylfu-lru tinylfu-slru wtinylfu clairvoyant fifo clock sieve s3-fifo 2q arc caffeine car' ;;
    'cachesim-survey:--capacity') echo '' ;;
    'cachesim-survey:--percent') echo '' ;;
    'cachesim-survey:--reach') echo '' ;;
    'cachesim-survey:--plot') echo '<FILE>' ;;
    'cachesim-survey:--html') echo '<FILE>' ;;
    'cachesim-survey:--after') echo '' ;;
    'cachesim-survey:--sampled') echo '' ;;
    'cachesim-survey:--accesses') echo '' ;;
    'cachesim-survey:--own') echo '<FILE>' ;;
    'cachesim-survey:--format') echo 'lirs arc' ;;
    'cachesim-survey:--main') echo '' ;;
    'cachesim-survey:--spread') echo 'mixed plain' ;;
    'cachesim-survey:--table') echo 'traces policies misses halves windows parts requests jumps reach powers' ;;
    'cachesim-survey:--program') echo '<FILE>' ;;
    'cachesim-survey:'*) echo '<FILE> -h --help --policy --capacity --percent --reach --plot --html --after --sampled --accesses --own --format --long --halves --main --spread --table --csv --program' ;;
    'cachesim-watch:--capacity') echo '' ;;
    'cachesim-watch:--first') echo 'lru slru tinylfu-lru tinylfu-slru wtinylfu clairvoyant fifo clock sieve s3-fifo 2q arc caffeine car' ;;
    'cachesim-watch:--second') echo 'lru slru tinylfu-lru tinylfu-slru wtinylfu clairvoyant fifo clock sieve s3-fifo 2q arc caffeine car' ;;
    'cachesim-watch:--journal') echo '<FILE>' ;;
    'cachesim-watch:--format') echo 'lirs arc' ;;
    'cachesim-watch:--main') echo '' ;;
    'cachesim-watch:--spread') echo 'mixed plain' ;;
    'cachesim-watch:--stripes') echo '' ;;
    'cachesim-watch:--limit') echo '' ;;
    'cachesim-watch:--program') echo '<FILE>' ;;
    'cachesim-watch:'*) echo '<FILE> -h --help --capacity --first --second --journal --format --main --spread --stripes --limit --open --program' ;;
    'cachesim-plot:--after') echo '' ;;
    'cachesim-plot:--sampled') echo '' ;;
    'cachesim-plot:--accesses') echo '' ;;
    'cachesim-plot:--y') echo '' ;;
    'cachesim-plot:--trace') echo '' ;;
    'cachesim-plot:--options') echo '' ;;
    'cachesim-plot:'*) echo '<FILE> -h --help --png --below-optimal --left --after --sampled --accesses --steps --y --trace --options --commands' ;;
    'cachesim-corpus:'*) echo 'run report -h --help' ;;
    'cachesim-corpus run:--policy') echo 'lru slru tinylfu-lru tinylfu-slru wtinylfu clairvoyant fifo clock sieve s3-fifo 2q arc caffeine car' ;;
    'cachesim-corpus run:--percent') echo '' ;;
    'cachesim-corpus run:--format') echo 'lirs arc' ;;
    'cachesim-corpus run:--jobs') echo '' ;;
    'cachesim-corpus run:--own') echo '<FILE>' ;;
    'cachesim-corpus run:--program') echo '<FILE>' ;;
    'cachesim-corpus run:--out') echo '<FILE>' ;;
    'cachesim-corpus run:--hosts') echo '<FILE>' ;;
    'cachesim-corpus run:'*) echo '<FILE> -h --help --policy --percent --format --jobs --own --program --out --hosts --send --slurm' ;;
    'cachesim-corpus report:--baseline') echo 'lru slru tinylfu-lru tinylfu-slru wtinylfu clairvoyant fifo clock sieve s3-fifo 2q arc caffeine car' ;;
    'cachesim-corpus report:--plot') echo '<FILE>' ;;
    'cachesim-corpus report:--scatter') echo 'lru slru tinylfu-lru tinylfu-slru wtinylfu clairvoyant fifo clock sieve s3-fifo 2q arc caffeine car' ;;
    'cachesim-corpus report:'*) echo '<FILE> -h --help --baseline --csv --plot --scatter' ;;
    'cachesim-sample:--rate') echo '' ;;
    'cachesim-sample:--seed') echo '' ;;
    'cachesim-sample:--format') echo 'lirs arc' ;;
    'cachesim-sample:--program') echo '<FILE>' ;;
    'cachesim-sample:'*) echo '<FILE> -h --help --rate --seed --format --program' ;;
    'cachesim-convert:--from') echo 'csv log text arc msr spc blktrace oracleGeneral cloudphysics cloudphysics2' ;;
    'cachesim-convert:--key') echo '' ;;
    'cachesim-convert:--size') echo '' ;;
    'cachesim-convert:--only') echo '' ;;
    'cachesim-convert:--separator') echo '' ;;
    'cachesim-convert:--block') echo '' ;;
    'cachesim-convert:--numbers') echo '<FILE>' ;;
    'cachesim-convert:'*) echo '<FILE> -h --help --from --key --size --only --separator --text --sizes --reads --block --numbers --skip' ;;
    'cachesim-journal:'*) echo '<FILE> -h --help --csv' ;;
    esac
}

_cachesim() {
    local word=${COMP_WORDS[COMP_CWORD]} before=${COMP_WORDS[COMP_CWORD - 1]} call=${COMP_WORDS[0]##*/} words
    # `--option=value` comes as three words.
    if [[ $word == = ]]; then
        word=
    elif [[ $before == = ]]; then
        before=${COMP_WORDS[COMP_CWORD - 2]}
    fi
    case $call in
    cachesim | cachesim-corpus) ((COMP_CWORD == 1)) || call="$call ${COMP_WORDS[1]}" ;;
    esac
    if [[ $before == *[\<\>] ]]; then
        words='<FILE>'
    else
        words=$(_cachesim_words "$call" "$before")
    fi
    mapfile -t COMPREPLY < <(compgen -W "${words/<FILE>/}" -- "$word")
    if [[ $words == *'<FILE>'* ]]; then
        compopt -o filenames
        mapfile -t -O "${#COMPREPLY[@]}" COMPREPLY < <(compgen -f -- "$word")
    fi
}
complete -F _cachesim cachesim cachesim-survey cachesim-watch cachesim-plot cachesim-corpus cachesim-sample cachesim-convert cachesim-journal
