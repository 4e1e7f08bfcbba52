-- Asks strsolve for a name through the library simple-smt: letters, then digits, none of them a zero.
--
--     ghc simple_smt.hs && ./simple_smt [STRSOLVE]
module Main (main) where

import qualified SimpleSMT as SMT
import System.Environment (getArgs)

literal :: String -> SMT.SExpr
literal text = SMT.Atom (show text) -- for a text of letters, digits and marks other than `"` and `\`

charactersFrom :: String -> String -> SMT.SExpr
charactersFrom low high = SMT.fun "re.range" [literal low, literal high]

atLeastOne :: SMT.SExpr -> SMT.SExpr
atLeastOne regex = SMT.fun "re.+" [regex]

isIn :: SMT.SExpr -> SMT.SExpr -> SMT.SExpr
isIn text regex = SMT.fun "str.in_re" [text, regex]

main :: IO ()
main = do
  arguments <- getArgs
  solver <- SMT.newSolver (head (arguments ++ ["strsolve"])) [] Nothing
  SMT.setLogic solver "QF_S"
  name <- SMT.declare solver "name" (SMT.const "String")
  let parts = [atLeastOne (charactersFrom "a" "z"), atLeastOne (charactersFrom "0" "9")]
      withZero = [SMT.const "re.all", SMT.fun "str.to_re" [literal "0"], SMT.const "re.all"]
  SMT.assert solver (name `isIn` SMT.fun "re.++" parts)
  SMT.assert solver (SMT.not (name `isIn` SMT.fun "re.++" withZero))
  print =<< SMT.check solver
  print =<< SMT.getConst solver "name"
  SMT.inNewScope solver $ do
    SMT.assert solver (name `isIn` charactersFrom "A" "Z")
    print =<< SMT.check solver
  print =<< SMT.stop solver
