# completions of sisyn for bash
_sisyn() {
  local word=${COMP_WORDS[COMP_CWORD]}
  local words= files=
  case "$COMP_CWORD ${COMP_WORDS[1]}" in
    1\ *) words='check states regions conflicts explain lint covers fold dot synth suggest map resolve insert genlib verilog eqn loops reset replay wave audit certify same product compose join works exercise help --version --help -h' ;;
    '2 check') files=yes ;;
    '2 states') files=yes ;;
    '2 regions') files=yes ;;
    '2 conflicts') files=yes ;;
    '2 explain') files=yes ;;
    '2 lint') files=yes ;;
    '2 covers') files=yes ;;
    '2 fold') files=yes ;;
    '2 dot') files=yes ;;
    '2 synth') files=yes ;;
    '3 synth') words='complex gc' ;;
    '2 suggest') files=yes ;;
    '3 suggest') words='complex gc' ;;
    '2 map') files=yes ;;
    '3 map') words='genlib'; files=yes ;;
    '4 map') words='suggest plain'; files=yes ;;
    '5 map') words='plain suggest' ;;
    '6 map') words='plain' ;;
    '2 resolve') files=yes ;;
    '3 resolve') words='suggest' ;;
    '2 insert') files=yes ;;
    '3 insert') words='gate'; files=yes ;;
    '4 insert') files=yes ;;
    '2 genlib') files=yes ;;
    '2 verilog') files=yes ;;
    '3 verilog') words='reset genlib'; files=yes ;;
    '4 verilog') words='inverters reset'; files=yes ;;
    '5 verilog') words='inverters reset' ;;
    '6 verilog') words='inverters' ;;
    '7 verilog') words='inverters' ;;
    '2 eqn') files=yes ;;
    '2 loops') files=yes ;;
    '3 loops') words='genlib'; files=yes ;;
    '4 loops') files=yes ;;
    '2 reset') files=yes ;;
    '2 replay') files=yes ;;
    '3 replay') files=yes ;;
    '4 replay') files=yes ;;
    '2 wave') files=yes ;;
    '3 wave') files=yes ;;
    '4 wave') files=yes ;;
    '2 audit') files=yes ;;
    '3 audit') files=yes ;;
    '2 certify') files=yes ;;
    '3 certify') words='eqn verilog'; files=yes ;;
    '4 certify') files=yes ;;
    '2 same') files=yes ;;
    '3 same') files=yes ;;
    '2 product') files=yes ;;
    '3 product') files=yes ;;
    '4 product') files=yes ;;
    '5 product') files=yes ;;
    '6 product') files=yes ;;
    '2 compose') files=yes ;;
    '3 compose') files=yes ;;
    '4 compose') files=yes ;;
    '5 compose') files=yes ;;
    '6 compose') files=yes ;;
    '2 join') files=yes ;;
    '3 join') files=yes ;;
    '4 join') files=yes ;;
    '5 join') files=yes ;;
    '2 works') files=yes ;;
    '3 works') files=yes ;;
    '4 works') files=yes ;;
    '5 works') files=yes ;;
    '2 exercise') words='1 2 3 4 5 6 7 8' ;;
    '2 help') words='check states regions conflicts explain lint covers fold dot synth suggest map resolve insert genlib verilog eqn loops reset replay wave audit certify same product compose join works exercise help --version' ;;
  esac
  mapfile -t COMPREPLY < <(compgen -W "$words" -- "$word"; [ -z "$files" ] || compgen -f -- "$word")
}
complete -o filenames -F _sisyn sisyn
