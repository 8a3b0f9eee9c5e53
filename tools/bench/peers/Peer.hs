-- Haskell's software transactional memory: as main.c, `Peer WORK THREADS COUNT FOLDER`. With the work's name
-- behind `log-`, each step also appends what it read and wrote to a list in a TVar.
module Main (main) where

import Control.Concurrent (forkOn, newEmptyMVar, putMVar, takeMVar)
import Control.Monad (forM, forM_, unless, when)
import Data.Array (Array, listArray, (!))
import Data.IORef (newIORef, readIORef, writeIORef)
import Data.List (stripPrefix)
import GHC.Clock (getMonotonicTimeNSec)
import GHC.Conc (STM, TVar, atomically, newTVarIO, readTVar, writeTVar)
import System.Environment (getArgs)
import Text.Printf (printf)

data Step = Step !Int [(Int, Int)] [(Int, Int)]

placesOfThread, places :: Int
placesOfThread = 64
places = 256

-- Reads the places, adds the numbers to the first of them, and records both if there is a list.
step :: Array Int (TVar Int) -> Maybe (TVar [Step]) -> Int -> [Int] -> [Int] -> STM ()
step numbers steps thread reads more = do
  values <- mapM (\place -> readTVar (numbers ! place)) reads
  let written = [(place, value + n) | (place, value, n) <- zip3 reads values more]
  forM_ written $ \(place, value) -> value `seq` writeTVar (numbers ! place) value
  forM_ steps $ \list -> do
    earlier <- readTVar list
    writeTVar list (Step thread (zip reads values) written : earlier)

sumOf :: Array Int (TVar Int) -> [Int] -> STM Int
sumOf numbers range = sum <$> mapM (\place -> readTVar (numbers ! place)) range

stepOf :: String -> Int -> Int -> ([Int], [Int])
stepOf "together" _ _ = ([0], [1])
stepOf "wide" thread i = ([thread * placesOfThread + (i * 7 + k * 37) `mod` placesOfThread | k <- [0 .. 15]], [1, 1, 1, 1])
stepOf _ thread _ = ([thread * placesOfThread], [1])

main :: IO ()
main = do
  [name, threadsText, countText, _] <- getArgs
  let (logs, work) = maybe (False, name) ((,) True) (stripPrefix "log-" name)
      threads = read threadsText
      count = read countText :: Int
  numbers <- listArray (0, places - 1) <$> mapM (const (newTVarIO 0)) [1 .. places]
  list <- newTVarIO []
  isOver <- newIORef False
  let steps = if logs then Just list else Nothing
      act thread i
        | work == "reader" = do
            found <- atomically (sumOf numbers [0 .. placesOfThread - 1])
            unless (found == 0) $ error "a reader saw half of a step"
        | otherwise = let (reads, more) = stepOf work thread i in atomically (step numbers steps thread reads more)
      writer i = do
        over <- readIORef isOver
        unless over $ do
          let here = i * 7 `mod` placesOfThread
          atomically (step numbers steps 1 [here, (here + 37) `mod` placesOfThread] [1, -1])
          writer (i + 1)
      start thread call = do
        done <- newEmptyMVar
        _ <- forkOn thread (call >> putMVar done ())
        return done
  begin <- getMonotonicTimeNSec
  written <- if work == "reader" then Just <$> start 1 (writer (0 :: Int)) else return Nothing
  ends <- forM [0 .. threads - 1] $ \thread -> start thread (forM_ [0 .. count - 1] (act thread))
  mapM_ takeMVar ends
  end <- getMonotonicTimeNSec
  writeIORef isOver True
  mapM_ takeMVar written
  found <- atomically (sumOf numbers [0 .. places - 1])
  let perStep = if work == "wide" then 4 else 1
      wanted = if work == "reader" then 0 else threads * count * perStep
  when (found /= wanted) $ error "the sum is wrong"
  recorded <- atomically (readTVar list)
  when (logs && work /= "reader" && length [() | Step _ (_ : _) _ <- recorded] /= threads * count) $ error "a step isn't in the list"
  printf "%.1f\n" (fromIntegral (end - begin) / fromIntegral (threads * count) :: Double)
