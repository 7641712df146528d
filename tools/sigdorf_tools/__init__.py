"""What the tools for planners share: tables, exact amounts, problems with names, names files, plans, pictures, faults."""
