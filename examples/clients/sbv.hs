-- Asks strsolve for a name through the library SBV: letters, then digits, none of them a zero.
--
--     ghc sbv.hs && SBV_Z3=$PWD/filtered ./sbv
--
-- SBV takes the program that it starts as z3 from SBV_Z3.
module Main (main) where

import Data.SBV
import Data.SBV.Control
import qualified Data.SBV.RegExp as R

main :: IO ()
main = runSMT $ do
  name <- sString "name"
  constrain $ name `R.match` (R.KPlus R.asciiLower * R.KPlus R.digit)
  let anything = R.KStar R.All
  namedConstraint "no zero" $ sNot (name `R.match` (anything * R.exactly "0" * anything))
  query $ do
    io . print =<< checkSat
    io . print =<< getValue name
    inNewAssertionStack $ do
      constrain $ name `R.match` R.asciiUpper
      io . print =<< checkSat
