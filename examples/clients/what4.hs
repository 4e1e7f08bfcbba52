{-# LANGUAGE DataKinds #-}
{-# LANGUAGE GADTs #-}
{-# LANGUAGE OverloadedStrings #-}
{-# LANGUAGE TypeApplications #-}
-- Asks strsolve through the library What4, which has no regular expressions, for a method of a request that a server
-- takes and a cache does not keep.
--
--     ghc what4.hs && ./what4 $PWD/filtered
module Main (main) where

import Data.Parameterized.Nonce (newIONonceGenerator)
import Data.Parameterized.Some (Some (..))
import qualified Data.Text as Text
import System.Environment (getArgs)
import What4.Config (extendConfig, getOptionSetting, setOpt)
import What4.Expr
import What4.Interface
import What4.Protocol.Online
import What4.Protocol.SMTLib2 (Writer, assume)
import What4.SatResult (SatResult (..))
import What4.Solver.Z3 (Z3, z3Features, z3Options, z3Path)

main :: IO ()
main = do
  arguments <- getArgs
  Some generator <- newIONonceGenerator
  sym <- newExprBuilder FloatIEEERepr EmptyExprBuilderState generator
  extendConfig z3Options (getConfiguration sym)
  setting <- getOptionSetting z3Path (getConfiguration sym)
  _ <- setOpt setting (Text.pack (head (arguments ++ ["strsolve"])))
  method <- freshConstant sym (safeSymbol "method") (BaseStringRepr UnicodeRepr)
  let isOneOf texts = do
        equal <- mapM (\text -> stringEq sym method =<< stringLit sym (UnicodeLiteral text)) texts
        foldr (\this others -> orPred sym this =<< others) (pure (falsePred sym)) equal
  taken <- isOneOf ["GET", "HEAD", "POST"]
  kept <- notPred sym =<< isOneOf ["GET", "HEAD"]
  other <- isOneOf ["PUT"]
  solver <- startSolverProcess @(Writer Z3) z3Features Nothing sym
  let ask predicates = inNewFrame solver $ do
        mapM_ (assume (solverConn solver)) predicates
        answer <- checkAndGetModel solver "the cache"
        case answer of
          Sat values -> print =<< groundEval values method
          Unsat _ -> putStrLn "none"
          Unknown -> putStrLn "unknown"
  ask [taken, kept]
  ask [taken, other]
  (status, _) <- shutdownSolverProcess solver
  print status
