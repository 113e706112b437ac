-- GHC's STM by lines: a register is a TVar, and each thread of the bench is one here.
--
-- GHC runs a block again at its commit, but also between two calls, and in the midst of the block's IO. The block then throws, and A answers the
-- pending call, or else the next one. The next attempt is another block, which begins with its first call.
import Control.Concurrent
import Control.Exception
import Control.Monad
import Data.IORef
import GHC.Conc (STM, TVar, atomically, newTVarIO, readTVar, throwSTM, unsafeIOToSTM, writeTVar)
import System.IO

-- The block was asked to abort, or is run again.
data Ended = Ended deriving Show
instance Exception Ended

-- A thread's call, which is there until it is answered; the answer; and a sign that there may be one.
data Box = Box (MVar [String]) (IORef String) (MVar ())

-- (a block that is run again in the midst of this finds the call pending, or answered)
answer :: Box -> String -> IO ()
answer (Box call text sign) word = writeIORef text word >> tryTakeMVar call >> void (tryPutMVar sign ())

writeAnswers :: Int -> Box -> IO ()
writeAnswers thread (Box call text sign) = forever $ do
    takeMVar sign
    isAnswered <- isEmptyMVar call
    found <- if isAnswered then atomicModifyIORef' text ((,) "") else return ""
    when (found /= "") $ putStrLn (show thread ++ ' ' : found)

block :: [TVar Integer] -> Box -> STM ()
block registers box@(Box call _ _) = do
    asked <- unsafeIOToSTM (readMVar call)
    case asked of
        ["R", register] -> readTVar (registers !! read register) >>= goOn . ("V " ++) . show
        ["W", register, value] -> writeTVar (registers !! read register) (read value) >> goOn "K"
        ["T"] -> return ()
        _ -> throwSTM Ended
  where
    goOn text = unsafeIOToSTM (answer box text) >> block registers box

-- Makes a transaction, and answers its last call.
serve :: [TVar Integer] -> Box -> IO ()
serve registers box@(Box call _ sign) = forever $ do
    hasRun <- newIORef False
    _ <- readMVar call
    ended <- try . atomically $ do
        again <- unsafeIOToSTM (atomicModifyIORef' hasRun ((,) True))
        when again (throwSTM Ended)
        block registers box
    _ <- tryPutMVar sign () >> readMVar call
    answer box (either (\Ended -> "A") (const "C") ended)

main :: IO ()
main = do
    hSetBuffering stdout LineBuffering
    registers <- replicateM 8 (newTVarIO 0)
    boxes <- replicateM 8 (Box <$> newEmptyMVar <*> newIORef "" <*> newEmptyMVar)
    forM_ (zip [0 ..] boxes) $ \(thread, box) -> forkIO (serve registers box) >> forkIO (writeAnswers thread box)
    calls <- lines <$> getContents
    forM_ calls $ \line -> let thread : call = words line; Box pending _ _ = boxes !! read thread in putMVar pending call
