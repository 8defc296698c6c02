class Account extends Thing implements Named {
    /*@ model int total; @*/
    int balance; /*@ in total; @*/
    static final int MAXIMUM = 1_000_000;

    public int number() {
        return 1;
    }
}
