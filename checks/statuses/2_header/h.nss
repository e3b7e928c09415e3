int A(); int A();
