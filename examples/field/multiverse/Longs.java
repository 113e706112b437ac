import org.multiverse.api.*;
import org.multiverse.api.exceptions.ControlFlowError;
import org.multiverse.api.references.TxnLong;

/**
 * Multiverse, a transactional memory, by lines: a register is a TxnLong.
 *
 *     Longs LEVEL LOCK
 *
 * LEVEL is a name of IsolationLevel, and LOCK one of LockMode, for what is read.
 */
class Longs extends Lines {
    static final TxnLong[] registers = new TxnLong[8];
    static TxnFactory factory;
    Txn transaction;

    /** A refusal is a ControlFlowError, after which Multiverse has rolled back, or the transaction is still alive. */
    String answer(String[] words) {
        try {
            transaction = transaction == null ? factory.newTxn() : transaction;
            switch (words[1]) {
            case "R":
                return "V " + registers[Integer.parseInt(words[2])].get(transaction);
            case "W":
                registers[Integer.parseInt(words[2])].set(transaction, Long.parseLong(words[3]));
                return "K";
            case "T":
                transaction.commit();
                transaction = null;
                return "C";
            }
        } catch (ControlFlowError refusal) {
        }
        if (transaction.getStatus().isAlive())
            transaction.abort();
        transaction = null;
        return "A";
    }

    public static void main(String[] given) throws Exception {
        IsolationLevel level = IsolationLevel.valueOf(given[0]);
        System.err.println(level + ": doesAllowWriteSkew() " + level.doesAllowWriteSkew());
        // (a transaction that guesses its own kind begins again if it has guessed wrong)
        factory = GlobalStmInstance.getGlobalStmInstance().newTxnFactoryBuilder().setIsolationLevel(level)
            .setReadLockMode(LockMode.valueOf(given[1])).setSpeculative(false).newTransactionFactory();
        Longs[] longs = new Longs[8];
        for (int i = 0; i < 8; i++) {
            registers[i] = StmUtils.newTxnLong(0);
            longs[i] = new Longs();
        }
        serve(longs);
    }
}
