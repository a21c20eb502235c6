void _Exit(int status);
