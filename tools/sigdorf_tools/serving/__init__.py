"""A page in a browser, which shows a table and its plan, and plans again what is changed there: `plan --serve`."""
