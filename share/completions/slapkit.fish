# fish completion for slapkit(1)
complete -c slapkit -n __fish_use_subcommand -f -a slapacl -d 'Report what a requester may do'
complete -c slapkit -n __fish_use_subcommand -f -a slapconf -d 'Make one flat slapd.conf of a configuration'
complete -c slapkit -n __fish_use_subcommand -f -a slapmodify -d 'Apply change records to a copy'
complete -c slapkit -n __fish_use_subcommand -f -a help -d 'Print help'
complete -c slapkit -n '__fish_seen_subcommand_from help; and not __fish_seen_subcommand_from slapacl slapconf slapmodify' -f -a 'slapacl slapconf slapmodify' -d 'The tool'
complete -c slapkit -s h -l help -d 'Print help'
complete -c slapkit -n __fish_use_subcommand -s V -l version -d 'Print the version'
complete -c slapkit -n '__fish_seen_subcommand_from slapmodify' -s b -x -d "The name at the directory's root"
complete -c slapkit -n '__fish_seen_subcommand_from slapmodify' -l data -r -d 'The copy, in LDIF'
complete -c slapkit -n '__fish_seen_subcommand_from slapmodify' -l out -r -d 'The file for the new copy'
complete -c slapkit -n '__fish_seen_subcommand_from slapmodify' -l undo -r -d 'The file for the changes that take the run back'
complete -c slapkit -n '__fish_seen_subcommand_from slapmodify' -s l -r -d 'The change records, in LDIF'
complete -c slapkit -n '__fish_seen_subcommand_from slapmodify' -l last -x -d 'The changes are an undo file: take so many records back'
complete -c slapkit -n '__fish_seen_subcommand_from slapmodify' -s f -r -d 'A slapd.conf whose attribute types are added'
complete -c slapkit -n '__fish_seen_subcommand_from slapmodify' -s c -d 'Go on after a refused record'
complete -c slapkit -n '__fish_seen_subcommand_from slapmodify' -s u -d 'Dry run: write the report alone'
complete -c slapkit -n '__fish_seen_subcommand_from slapmodify' -s v -d 'Report accepted records too'
complete -c slapkit -n '__fish_seen_subcommand_from slapacl' -s b -x -d "The name of the entry"
complete -c slapkit -n '__fish_seen_subcommand_from slapacl' -s f -r -d "The slapd.conf that has the access rules"
complete -c slapkit -n '__fish_seen_subcommand_from slapacl' -l data -r -d "The copy, in LDIF"
complete -c slapkit -n '__fish_seen_subcommand_from slapacl' -s D -x -d "The requester's name"
complete -c slapkit -n '__fish_seen_subcommand_from slapacl' -s u -d "Do not look the entry up"
complete -c slapkit -n '__fish_seen_subcommand_from slapacl' -s v -d "Report the requester's name first, or every answer"
complete -c slapkit -n '__fish_seen_subcommand_from slapacl' -l strict -d "Answer nothing where there is a note on the configuration or a word"
complete -c slapkit -n '__fish_seen_subcommand_from slapacl' -l questions -r -d "A file of questions with the answers that are expected"
complete -c slapkit -n '__fish_seen_subcommand_from slapacl' -l answers -r -d "The file for the questions with their answers"
complete -c slapkit -n '__fish_seen_subcommand_from slapconf' -s b -x -d "The suffix of the database"
complete -c slapkit -n '__fish_seen_subcommand_from slapconf' -s f -r -d "The slapd.conf, which may include other files"
complete -c slapkit -n '__fish_seen_subcommand_from slapconf' -l config -r -d "The LDIF of cn=config"
complete -c slapkit -n '__fish_seen_subcommand_from slapconf' -l out -r -d "The file for the flat configuration"
