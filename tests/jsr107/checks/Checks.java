package checks;

/** Runs the checks of all areas, or of those that are named. */
final class Checks {
    private Checks() {}

    public static void main(String[] words) {
        OperationChecks.run();
        ListenerChecks.run();
        ExpiryChecks.run();
        ThroughChecks.run();
        ProcessorChecks.run();
        ManagementChecks.run();
        ProviderChecks.run();
        KeyChecks.run();
        ValueChecks.run();
        ThreadChecks.run();
        Check.end();
    }
}
