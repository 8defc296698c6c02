interface Named {
    int number();
}

class Thing { }
