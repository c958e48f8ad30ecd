let a = «b»;
