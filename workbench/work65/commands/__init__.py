"""The subcommands of work65, a module each. A module has NAME, HELP, add_arguments(parser) and run(arguments) -> status."""
