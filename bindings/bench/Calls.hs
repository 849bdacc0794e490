{-# LANGUAGE BangPatterns #-}

-- Calls by GHC's STM: an array of TVars, and retry. Workloads, draws and checksum are those of harness.h.
--
--     Calls WORKLOAD THREADS CALLS     prints nanoseconds a call, a checksum, violations, peak memory in kilobytes
module Main (main) where

import Control.Concurrent
import Control.Concurrent.STM
import Control.Monad
import Data.Array (Array, elems, listArray)
import Data.Array.Base (unsafeAt)
import Data.Bits
import Data.List (foldl')
import Data.Word (Word64)
import GHC.Clock (getMonotonicTimeNSec)
import System.Environment (getArgs)
import System.Exit
import Text.Printf (hPrintf, printf)
import System.IO (stderr)

type Table = Array Int (TVar Int)

-- The transactions.

transfer :: Table -> Int -> Int -> Int -> STM Int
transfer table from to amount = do
  let !payer = unsafeAt table from
      !receiver = unsafeAt table to
  has <- readTVar payer
  if has < amount
    then return $! complement amount
    else do
      writeTVar payer $! has - amount
      before <- readTVar receiver
      writeTVar receiver $! before + amount
      return $! if from == to then has else has - amount
{-# INLINE transfer #-}

audit :: Table -> Int -> STM Int
audit table cells = go 0 0
  where
    go :: Int -> Int -> STM Int
    go !i !sum_
      | i == cells = return sum_
      | otherwise = readTVar (unsafeAt table i) >>= \value -> go (i + 1) (sum_ + value)

put :: Table -> Int -> Int -> Int -> STM ()
put table places buffer value = do
  let !at = buffer * (2 + places)
  got <- readTVar (unsafeAt table at)
  given <- readTVar (unsafeAt table (at + 1))
  when (given - got == places) retry
  writeTVar (unsafeAt table (at + 2 + given .&. (places - 1))) value
  writeTVar (unsafeAt table (at + 1)) $! given + 1
{-# INLINE put #-}

get :: Table -> Int -> Int -> STM Int
get table places buffer = do
  let !at = buffer * (2 + places)
  got <- readTVar (unsafeAt table at)
  given <- readTVar (unsafeAt table (at + 1))
  when (given == got) retry
  value <- readTVar (unsafeAt table (at + 2 + got .&. (places - 1)))
  writeTVar (unsafeAt table at) $! got + 1
  return value
{-# INLINE get #-}

-- What is drawn, and the checksum.

seed :: Int -> Word64
seed thread = 0x9E3779B97F4A7C15 * fromIntegral (thread + 1)

drawn :: Word64 -> Word64
drawn x = c
  where
    !a = x `xor` (x `unsafeShiftL` 13)
    !b = a `xor` (a `unsafeShiftR` 7)
    !c = b `xor` (b `unsafeShiftL` 17)
{-# INLINE drawn #-}

mixed :: Word64 -> Word64
mixed x = b `xor` (b `unsafeShiftR` 31)
  where
    a = (x `xor` (x `unsafeShiftR` 30)) * 0xBF58476D1CE4E5B9
    b = (a `xor` (a `unsafeShiftR` 27)) * 0x94D049BB133111EB

-- What a thread did: what it gave and got, and how many violations it saw.
data Done = Done {given_ :: !Word64, got_ :: !Word64, violations_ :: !Int}

transfers :: Table -> Int -> Bool -> Bool -> Int -> Int -> IO Done
transfers table accounts skewed audits calls thread = go 0 (seed thread) 0 0
  where
    go :: Int -> Word64 -> Word64 -> Int -> IO Done
    go !i !state !got !bad
      | i == calls = return (Done 0 got bad)
      | audits && i `rem` 100 == 99 = do
          told <- atomically (audit table accounts)
          go (i + 1) state (got * 31 + fromIntegral told) (if told == accounts * 100 then bad else bad + 1)
      | otherwise = do
          let !x = drawn state
              !among = if skewed && ((x `unsafeShiftR` 56) * 10) `unsafeShiftR` 8 < 9 then 10 else fromIntegral accounts
              !from = fromIntegral (((x .&. 0xFFFFF) * among) `unsafeShiftR` 20)
              !to = fromIntegral ((((x `unsafeShiftR` 20) .&. 0xFFFFF) * among) `unsafeShiftR` 20)
              !amount = 1 + fromIntegral ((((x `unsafeShiftR` 40) .&. 0xFFFF) * 100) `unsafeShiftR` 16)
          told <- atomically (transfer table from to amount)
          go (i + 1) x (got * 31 + fromIntegral told) bad

queue :: Table -> Bool -> Int -> Int -> IO Done
queue table alone calls thread = go 0 (seed thread) 0 0 0
  where
    go :: Int -> Word64 -> Word64 -> Word64 -> Word64 -> IO Done
    go !i !state !first !given !got
      | i == calls = return (Done given got 0)
      | otherwise = do
          let !visit = if alone then i `unsafeShiftR` 1 else i
              !puts = if alone then even i else even thread
              !begins = visit .&. 15 == 0 && (puts || not alone)
              !state' = if begins then drawn state else state
              !first' = if begins then state' `unsafeShiftR` 60 else first
              !buffer = (fromIntegral first' + visit) .&. 15
          if puts
            then do
              let !value = (thread `unsafeShiftL` 32) + visit + 1
              atomically (put table 8 buffer value)
              go (i + 1) state' first' (given + mixed (fromIntegral value)) got
            else do
              value <- atomically (get table 8 buffer)
              go (i + 1) state' first' given (got + mixed (fromIntegral value))

ping :: Table -> Int -> Int -> IO Done
ping table calls 0 = forM_ [1 .. calls] (\i -> atomically (put table 1 0 i)) >> return (Done 0 0 0)
ping table calls _ = go 1 0 0
  where
    go :: Int -> Word64 -> Int -> IO Done
    go !i !got !bad
      | i > calls = return (Done 0 got bad)
      | otherwise = do
          value <- atomically (get table 1 0)
          go (i + 1) (got * 31 + fromIntegral value) (if value == i then bad else bad + 1)

-- Each thread on a processor of its own; all begin at once. How long they take, and what each did.
byThreads :: Int -> (Int -> IO Done) -> IO (Double, [Done])
byThreads threads work = do
  setNumCapabilities threads
  begun <- newEmptyMVar
  mayGo <- newEmptyMVar
  ends <- forM [0 .. threads - 1] $ \thread -> do
    end <- newEmptyMVar
    _ <- forkOn thread $ do
      putMVar begun ()
      readMVar mayGo
      done <- work thread
      at <- getMonotonicTimeNSec
      putMVar end $! (at, done)
    return end
  replicateM_ threads (takeMVar begun)
  begin <- getMonotonicTimeNSec
  putMVar mayGo ()
  seats <- mapM takeMVar ends
  return (fromIntegral (maximum (map fst seats) - begin), map snd seats)

-- The checksum, and how many violations there are.
judged :: Int -> Int -> Bool -> [Int] -> [Done] -> (Word64, Int)
judged accounts places isQueue values seats = (if accounts > 0 then state + got else got, seen + wrong)
  where
    got = sum (map got_ seats)
    seen = sum (map violations_ seats)
    state = foldl' (\hash value -> (hash `xor` fromIntegral value) * 0x100000001B3) 0xCBF29CE484222325 values
    uneven (a : b : rest) = fromEnum (a /= b) + uneven (drop places rest)
    uneven _ = 0
    lost = fromEnum (isQueue && sum (map given_ seats) /= got)
    wrong
      | accounts > 0 = length (filter (< 0) values) + fromEnum (foldl' (+) 0 values /= accounts * 100)
      | otherwise = uneven values + lost

run :: String -> Int -> Int -> IO ()
run name threads calls = do
  let isQueue = name == "queue"
      isPing = name == "ping"
      accounts
        | isQueue || isPing = 0
        | otherwise = if name == "large" then 1000000 else 1000
      places = if isQueue then 8 else 1
      cells
        | accounts > 0 = accounts
        | otherwise = if isQueue then 160 else 3
  variables <- replicateM cells (newTVarIO (if accounts > 0 then 100 else 0))
  let table = listArray (0, cells - 1) variables :: Table
      work
        | isQueue = queue table (threads == 1) calls
        | isPing = ping table calls
        | otherwise = transfers table accounts (name == "skewed") (name == "audit") calls
  foldr seq () (elems table) `seq` return ()
  (took, seats) <- byThreads threads work
  status <- readFile "/proc/self/status"
  values <- mapM readTVarIO (elems table)
  let kb = head [word | ("VmHWM:" : word : _) <- map words (lines status)]
      (checksum, violations) = judged accounts places isQueue values seats
      each = took / fromIntegral calls / (if isPing then 1 else fromIntegral threads) :: Double
  printf "%.2f %016x %d %s\n" each checksum violations kb

main :: IO ()
main = do
  given <- getArgs
  case given of
    [name, threads, calls] | fits name (read threads) (read calls) -> run name (read threads) (read calls)
    _ -> do
      hPrintf stderr "WORKLOAD THREADS CALLS: transfer, skewed, audit, large, queue, ping or many\n"
      exitWith (ExitFailure 2)
  where
    fits :: String -> Int -> Int -> Bool
    fits name threads calls = threads >= 1 && threads <= 64 && calls >= 1 && case name of
      "queue" -> calls `rem` 32 == 0 && (threads == 1 || even threads)
      "ping" -> threads == 2
      "many" -> threads == 1
      _ -> name `elem` ["transfer", "skewed", "audit", "large"]
