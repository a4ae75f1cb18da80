complete -c kbsim -n "__fish_use_subcommand" -s h -l help -d 'Print help information (use `--help` for more detail)'
complete -c kbsim -n "__fish_use_subcommand" -s V -l version -d 'Print version information'
complete -c kbsim -n "__fish_use_subcommand" -f -a "describe" -d 'Prints the keyboard\'s descriptors'
complete -c kbsim -n "__fish_use_subcommand" -f -a "parse" -d 'Prints the fields, or the items, of a report descriptor'
complete -c kbsim -n "__fish_use_subcommand" -f -a "read" -d 'Tells the values in HID reports'
complete -c kbsim -n "__fish_use_subcommand" -f -a "write" -d 'Prints a HID report in which controls are set'
complete -c kbsim -n "__fish_use_subcommand" -f -a "run" -d 'Runs a script'
complete -c kbsim -n "__fish_use_subcommand" -f -a "help" -d 'Print this message or the help of the given subcommand(s)'
complete -c kbsim -n "__fish_seen_subcommand_from describe" -s h -l help -d 'Print help information (use `--help` for more detail)'
complete -c kbsim -n "__fish_seen_subcommand_from parse" -l from -d 'How the text says the bytes; hex where nothing is said' -r -f -a "{hex	,c	,rust	,loose	,xxd	,hexdump	,rdesc	,usbhid-dump	,hid-recorder	,bytes	,auto	}"
complete -c kbsim -n "__fish_seen_subcommand_from parse" -l items -d 'Prints each item, up to the first fault, in place of the fields'
complete -c kbsim -n "__fish_seen_subcommand_from parse" -l details -d 'Prints a tree of collections and items, in words'
complete -c kbsim -n "__fish_seen_subcommand_from parse" -l json -d 'Prints a JSON object'
complete -c kbsim -n "__fish_seen_subcommand_from parse" -l lenient -d 'Reads on past faults of the descriptor that Linux passes over, with a line for each'
complete -c kbsim -n "__fish_seen_subcommand_from parse" -s h -l help -d 'Print help information (use `--help` for more detail)'
complete -c kbsim -n "__fish_seen_subcommand_from read" -l address -d 'The packets of usbmon that are read, as BUS:DEVICE or BUS:DEVICE:ENDPOINT' -r
complete -c kbsim -n "__fish_seen_subcommand_from read" -l kind -d 'The kind of the reports' -r -f -a "{input	,output	,feature	}"
complete -c kbsim -n "__fish_seen_subcommand_from read" -l from -d 'How the descriptor\'s text says the bytes; it is told by what it looks like where nothing is said' -r -f -a "{hex	,c	,rust	,loose	,xxd	,hexdump	,rdesc	,usbhid-dump	,hid-recorder	,bytes	,auto	}"
complete -c kbsim -n "__fish_seen_subcommand_from read" -l names -d 'Usages by their names'
complete -c kbsim -n "__fish_seen_subcommand_from read" -l json -d 'One JSON object a line; docs/reader.md has the schema'
complete -c kbsim -n "__fish_seen_subcommand_from read" -l changes -d 'The usages that a report presses and releases, in place of its values'
complete -c kbsim -n "__fish_seen_subcommand_from read" -l raw -d 'The reports are bytes, and not lines'
complete -c kbsim -n "__fish_seen_subcommand_from read" -l live -d 'DESCRIPTOR is a hidraw device, of which the descriptor and the reports are read'
complete -c kbsim -n "__fish_seen_subcommand_from read" -l lenient -d 'Reads on past faults of the descriptor that Linux passes over, with a line for each'
complete -c kbsim -n "__fish_seen_subcommand_from read" -s h -l help -d 'Print help information (use `--help` for more detail)'
complete -c kbsim -n "__fish_seen_subcommand_from write" -l kind -d 'The kind of the report' -r -f -a "{input	,output	,feature	}"
complete -c kbsim -n "__fish_seen_subcommand_from write" -l onto -d 'The report whose other bits stay' -r
complete -c kbsim -n "__fish_seen_subcommand_from write" -l from -d 'How the descriptor\'s text says the bytes; it is told by what it looks like where nothing is said' -r -f -a "{hex	,c	,rust	,loose	,xxd	,hexdump	,rdesc	,usbhid-dump	,hid-recorder	,bytes	,auto	}"
complete -c kbsim -n "__fish_seen_subcommand_from write" -s h -l help -d 'Print help information (use `--help` for more detail)'
complete -c kbsim -n "__fish_seen_subcommand_from run" -l image -d 'Starts on a flash that holds the bytes of FILE' -r -F
complete -c kbsim -n "__fish_seen_subcommand_from run" -l save -d 'Writes the flash\'s bytes to FILE after a run without a fault' -r -F
complete -c kbsim -n "__fish_seen_subcommand_from run" -l pages -d 'How many pages the flash has' -r -f -a "{2	,3	,4	,5	,6	,7	,8	}"
complete -c kbsim -n "__fish_seen_subcommand_from run" -l explain -d 'Says on standard error what each answer means'
complete -c kbsim -n "__fish_seen_subcommand_from run" -s h -l help -d 'Print help information (use `--help` for more detail)'
complete -c kbsim -n "__fish_seen_subcommand_from help; and not __fish_seen_subcommand_from describe; and not __fish_seen_subcommand_from parse; and not __fish_seen_subcommand_from read; and not __fish_seen_subcommand_from write; and not __fish_seen_subcommand_from run; and not __fish_seen_subcommand_from help" -f -a "describe" -d 'Prints the keyboard\'s descriptors'
complete -c kbsim -n "__fish_seen_subcommand_from help; and not __fish_seen_subcommand_from describe; and not __fish_seen_subcommand_from parse; and not __fish_seen_subcommand_from read; and not __fish_seen_subcommand_from write; and not __fish_seen_subcommand_from run; and not __fish_seen_subcommand_from help" -f -a "parse" -d 'Prints the fields, or the items, of a report descriptor'
complete -c kbsim -n "__fish_seen_subcommand_from help; and not __fish_seen_subcommand_from describe; and not __fish_seen_subcommand_from parse; and not __fish_seen_subcommand_from read; and not __fish_seen_subcommand_from write; and not __fish_seen_subcommand_from run; and not __fish_seen_subcommand_from help" -f -a "read" -d 'Tells the values in HID reports'
complete -c kbsim -n "__fish_seen_subcommand_from help; and not __fish_seen_subcommand_from describe; and not __fish_seen_subcommand_from parse; and not __fish_seen_subcommand_from read; and not __fish_seen_subcommand_from write; and not __fish_seen_subcommand_from run; and not __fish_seen_subcommand_from help" -f -a "write" -d 'Prints a HID report in which controls are set'
complete -c kbsim -n "__fish_seen_subcommand_from help; and not __fish_seen_subcommand_from describe; and not __fish_seen_subcommand_from parse; and not __fish_seen_subcommand_from read; and not __fish_seen_subcommand_from write; and not __fish_seen_subcommand_from run; and not __fish_seen_subcommand_from help" -f -a "run" -d 'Runs a script'
complete -c kbsim -n "__fish_seen_subcommand_from help; and not __fish_seen_subcommand_from describe; and not __fish_seen_subcommand_from parse; and not __fish_seen_subcommand_from read; and not __fish_seen_subcommand_from write; and not __fish_seen_subcommand_from run; and not __fish_seen_subcommand_from help" -f -a "help" -d 'Print this message or the help of the given subcommand(s)'
