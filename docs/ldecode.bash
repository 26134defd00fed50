# Completion of ldecode's words for bash 4.2 or later: made by .ci/pages, of what the help says.
#
# Source it, or put it under the name ldecode into share/bash-completion/completions, as bin/install does.

# What follows is of the help: the options with the words that they take, and the decoders.
declare -A _ldecode_words=(
    [--job]='decode find make part'
    [--format]='raw vcd csv'
    [--channels]=''
    [--rate]=''
    [--down]=''
    [--csv]='rows times'
    [--header]='yes no'
    [--threads]='yes no'
    [--ring]=''
    [--show]=''
    [--binary]=''
    [--seed]=''
    [--count]=''
    [--from]=''
    [--watch]='yes no'
)
declare -A _ldecode_options=(
    [i2c]='scl sda'
    [spi]='sck mosi miso cs cpol cpha bits mode'
    [uart]='rx baud bits parity stop sp'
    [onewire_link]='dq reset window bit'
    [onewire_net]=''
    [eeprom24]='addr size page gcall'
    [ds1307]='gcall'
    [lm75]='addr gcall'
    [ds18b20]=''
    [flash25]=''
    [modbus]='gap'
    [midi]=''
)
declare -A _ldecode_choices=(
    [spi:cpol]='0 1'
    [spi:cpha]='0 1'
    [spi:bits]='1 2 3 4 5 6 7 8 9 10 11 12 13 14 15 16 17 18 19 20 21 22 23 24 25 26 27 28 29 30 31 32'
    [spi:mode]='msb_low msb_high lsb_low lsb_high'
    [uart:bits]='5 6 7 8 9'
    [uart:parity]='none odd even zero one'
    [uart:stop]='1 2'
    [eeprom24:addr]='0 1 2 3 4 5 6 7'
    [eeprom24:size]='256 128 4096 8192 16384 32768 65536'
    [eeprom24:page]='8 16 32 64 128'
    [eeprom24:gcall]='0 1'
    [ds1307:gcall]='0 1'
    [lm75:addr]='0 1 2 3 4 5 6 7'
    [lm75:gcall]='0 1'
)
declare -A _ldecode_classes=(
    [i2c]='write read'
    [spi]='mosi miso'
    [uart]='data'
    [onewire_net]='data'
    [eeprom24]='write read'
    [ds1307]='write read'
    [ds18b20]='scratchpad'
    [flash25]='read program'
)
declare -A _ldecode_upon=(
    [onewire_link]='onewire_net'
    [i2c]='eeprom24 ds1307 lm75'
    [onewire_net]='ds18b20'
    [spi]='flash25'
    [uart]='modbus midi'
)
_ldecode_roots='i2c spi uart onewire_link'

# Puts what can follow into `found`: every candidate is a whole word of the command line.

# The instances that the chains of the line make, one after another, as i2c-1.
_ldecode_instances() {
    local -A counts
    local word part kind skips=
    for word in "$@"; do
        if [ -n "$skips" ]; then
            skips=
            continue
        fi
        case $word in
            --*=*) continue ;;
            --* | '<' | '>' | '>>' | '|') skips=yes; continue ;;
        esac
        local IFS=,
        for part in $word; do
            kind=${part%%:*}
            if [ -n "${_ldecode_options[$kind]+is}" ]; then
                counts[$kind]=$((${counts[$kind]:-0} + 1))
                echo "$kind-${counts[$kind]}"
            fi
        done
    done
}

# What an option of the program can be followed by; its value so far, and the words of the line.
_ldecode_values() {
    local option=$1 value=$2 name class before
    shift 2
    case $option in
        --show)
            before=
            [[ $value == *,* ]] && before=${value%,*},
            found=(all)
            for name in $(_ldecode_instances "$@"); do
                found+=("$before$name")
            done
            ;;
        --binary)
            local -a names
            names=($(_ldecode_instances "$@"))
            if [ ${#names[@]} -eq 0 ]; then
                for name in "${!_ldecode_classes[@]}"; do
                    names+=("$name-1")
                done
            fi
            for name in "${names[@]}"; do
                for class in ${_ldecode_classes[${name%-*}]}; do
                    found+=("$name:$class")
                done
            done
            ;;
        *)
            found=(${_ldecode_words[$option]})
            ;;
    esac
}

# What a chain can go on with; the chain so far, and the words of the line.
_ldecode_chain() {
    local chain=$1 before= part parent kind option name
    shift
    part=${chain##*,}
    before=${chain%"$part"}
    if [[ $part == *:* ]]; then
        kind=${part%%:*}
        before+=${part%"${part##*:}"}
        option=${part##*:}
        if [[ $option == *=* ]]; then
            option=${option%%=*}
            for name in ${_ldecode_choices[$kind:$option]}; do
                found+=("$before$option=$name")
            done
        else
            for name in ${_ldecode_options[$kind]}; do
                [[ $part == *:$name=* ]] || found+=("$before$name=")
            done
        fi
    elif [ -n "$before" ]; then
        parent=${before%,}
        parent=${parent##*,}
        parent=${parent%%:*}
        for name in ${_ldecode_upon[${parent%-*}]}; do
            found+=("$before$name")
        done
    else
        for name in $_ldecode_roots; do
            found+=("$name:")
        done
        for name in $(_ldecode_instances "$@"); do
            [ -n "${_ldecode_upon[${name%-*}]}" ] && found+=("$name,")
        done
    fi
}

_ldecode() {
    local line=${COMP_LINE:0:COMP_POINT} word last job=decode one
    local -a found=() words=() typed=()
    # readline parts words at `:` and `=`; here a word is what blanks part
    word=${line##*[[:space:]]}
    read -ra words <<< "${COMP_LINE#*[[:space:]]}"
    read -ra typed <<< "${line%"$word"}"
    last=${typed[${#typed[@]} - 1]}
    COMPREPLY=()
    case $last in
        '<' | '>' | '>>')
            compopt -o default 2> /dev/null
            return
            ;;
    esac
    for one in "${!words[@]}"; do
        case ${words[one]} in
            --job=*) job=${words[one]#--job=} ;;
            --job) job=${words[one + 1]:-} ;;
        esac
    done
    if [[ $word == --*=* ]]; then
        _ldecode_values "${word%%=*}" "${word#*=}" "${words[@]}"
        found=("${found[@]/#/${word%%=*}=}")
    elif [[ $last == --* && $last != *=* && -n ${_ldecode_words[$last]+is} ]]; then
        _ldecode_values "$last" "$word" "${words[@]}"
    elif [[ $word == -* ]]; then
        found=("${!_ldecode_words[@]}")
        [ ${#typed[@]} -eq 1 ] && found+=(--help --version)
    elif [[ $job != find && $job != make ]]; then
        _ldecode_chain "$word" "${words[@]}"
        # a chain may go on, so that no blank follows
        compopt -o nospace 2> /dev/null
    elif [[ $job == find && any == "$word"* ]]; then
        found=(any)
    fi
    # bash puts what is answered after the last character at which readline parts words
    local cut=
    for one in : =; do
        if [[ $COMP_WORDBREAKS == *$one* && $word == *$one* ]]; then
            local part=${word%"${word##*$one}"}
            [ ${#part} -gt ${#cut} ] && cut=$part
        fi
    done
    for one in "${found[@]}"; do
        [[ $one == "$word"* ]] && COMPREPLY+=("${one#"$cut"}")
    done
    return 0
}

complete -F _ldecode ldecode
