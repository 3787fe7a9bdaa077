/** Settles a session again and again where memory is refused, until there is its report: each time it tells what was. */
final class Again {
    private Again() {}

    public static void main(String[] words) {
        long session = Goodlock.open(1, 1, 1);
        long lane = Goodlock.lane(session);
        Goodlock.close(lane);
        Goodlock.pull(session, 1);
        Goodlock.handIn(session, lane);
        for (int i = 0; i < 3; i++) {
            try {
                System.out.print(Goodlock.settle(session));
            } catch (IllegalStateException error) {
                System.out.println(error.getMessage());
            }
        }
    }
}
