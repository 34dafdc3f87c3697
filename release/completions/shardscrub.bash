# Completions of shardscrub for bash. dev/options.py makes this file.

_shardscrub() {
    local commands="summary scan shard shards index locators manifest runs reclaimable compare superblocks sizes items demo help" word=${COMP_WORDS[COMP_CWORD]} command="" options="" repeated="--run --reset --accept" flags="--partial" given=" "
    local -i images=0 places=0 i
    local option="" one
    for ((i = 1; i < COMP_CWORD; i++)); do
        one=${COMP_WORDS[i]}
        if [[ $option && $one = "=" ]]; then continue; fi
        if [[ $option ]]; then option=""
        elif [[ $one = --help || $one = --version || " $flags " = *" $one "* ]]; then given+="$one "
        elif [[ $one = --* ]]; then option=$one given+="$one "
        elif [[ $one = -* ]]; then continue
        elif [[ ! $command ]]; then command=$one
        else places+=1
        fi
    done
    if [[ $option && $word = "=" ]]; then word=""; fi
    case $command in
        "") options="$commands --help --version" ;;
        help) options=$commands; if ((places > 0)); then options=""; fi ;;
        summary) options="--page --pages --extents --workers --last --map --help" images=1 ;;
        scan) options="--page --pages --extents --workers --map --help" images=1 ;;
        shard) options="--page --pages --extents --workers --id --run --map --help" images=1 ;;
        shards) options="--page --pages --extents --workers --partial --run --map --help" images=1 ;;
        index) options="--page --pages --extents --workers --map --help" images=1 ;;
        locators) options="--page --pages --extents --workers --map --help" images=1 ;;
        manifest) options="--page --pages --extents --workers --reset --run --map --help" images=1 ;;
        runs) options="--page --pages --extents --workers --map --help" images=1 ;;
        reclaimable) options="--page --pages --extents --workers --accept --last --map --help" images=1 ;;
        compare) options="--page --pages --extents --workers --reset --map --help" images=2 ;;
        superblocks) options="--page --pages --extents --map --help" images=1 ;;
        sizes) options="--map --help" images=1 ;;
        items) options="--page --pages --extents --extent --pointer --map --help" images=1 ;;
        demo) options="--help" images=0 ;;
    esac
    COMPREPLY=()
    case $option in
        --page) mapfile -t COMPREPLY < <(compgen -W "64 128 256 512 1024 2048 4096 8192 16384 32768 65536" -- "$word"); return ;;
        --map) places=0 images=1 ;;
        ?*) return ;;
        "") if [[ $word = -* || ! $command || $command = help ]]; then
                for one in $options; do
                    if [[ $one = "$word"* && ($given != *" $one "* || " $repeated " = *" $one "*) ]]; then COMPREPLY+=("$one"); fi
                done
                return
            fi ;;
    esac
    if ((places < images)); then
        compopt -o filenames 2>/dev/null
        mapfile -t COMPREPLY < <(compgen -f -- "$word")
    fi
}
complete -F _shardscrub shardscrub
