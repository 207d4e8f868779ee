"""Commands of `python -m jambulskeg`, each a module: its words (`add_..`), and what it does (`run_..`)."""
