"""Histories of Jepsen and Elle as logs. The lines that are wanted were written by hand."""
import json
import unittest

from tree import TOOLS, kit

elle = kit.module_of("tested_import_elle", f"{TOOLS}/import_elle")


def operation(process, kind, value, **more):
    members = "".join(f" :{name} {it}" for name, it in more.items())
    return f"{{:process {process} :type :{kind} :f :txn :value {value}{members}}}\n"


def done(process, value):
    return operation(process, "invoke", value) + operation(process, "ok", value)


REGISTERS = """; two transactions, one after the other
{:type :invoke, :f :txn, :value [[:w :x 1] [:r :y nil]], :process 0, :time 10, :index 0}
{:type :ok, :f :txn, :value [[:w :x 1] [:r :y nil]], :process 0, :time 20, :index 1}
{:type :invoke, :f :txn, :value [[:r :x nil]], :process 1, :time 30, :index 2}
{:type :ok, :f :txn, :value [[:r :x 1]], :process 1, :time 45, :index 3}
"""
ENDS = """[{:type :invoke :f :txn :value [[:w 1 1] [:r 2 nil]] :process 0 :time 5 :index 7}
 {:type :info :f :start :value nil :process :nemesis}
 {:type :fail :f :txn :value [[:w 1 1] [:r 2 nil]] :process 0 :time 6 :error [:abort "no"]}
 #_ {:type :invoke :f :txn :value [[:w 1 9]] :process 0}
 #jepsen.history.Op{:type :invoke :f :txn :value [[:r 1 nil] [:w 1 2]] :process 0 :time 7}
 {:type :invoke :f :log :value "hello" :process 2 :time 8}
 {:type :info :f :txn :value [[:r 1 nil] [:w 1 2]] :process 0 :time 8}
 {:type :info :f :log :value "hello" :process 2 :time 8}
 {:type :invoke :f :txn :value [[:w 1 3]] :process 3}]"""
VALUES = r"""[[:w 007N 3N] [:w -1 -2] [:w "7" "x"] [:w "true" true] [:w 1.5 \a] [:w 9223372036854775807 9223372036854775808] [:w [1,(2)] {:a #{3}}] [:w "a\"b" "\\"]]"""
FAULTS = [
    ("{:type :invoke, :f :txn,\n :value [[:r 1 nil]\n", "2:9 this bracket isn't closed"),
    ("{:type :invoke]", "1:15 this bracket closes none"),
    ('{:type "invoke', "1:8 a text ends with quotes"),
    ('{:type "in\\voke"}', "1:11 a text has no such escape"),
    ('{"type":invoke}', "1:9 wanted a form of EDN or a value of JSON"),
    ("{:type :invoke :f}", "1:16 a map has a value for each key"),
    ("\n7", "2:1 wanted an operation, which is a map"),
    ("{:process 0, :type :done}", "1:20 the type of an operation is invoke, ok, fail or info"),
    ("{:type :ok}", "1:1 an operation has a process"),
    ("{:type :invoke, :process 0, :f :txn, :value nil}", "1:45 the value of a transaction is a list of reads, writes and appends"),
    ("{:type :invoke, :process 0, :f :txn, :value [[:r 1 nil] [:cas 1 2]]}", "1:57 wanted [:r KEY VALUE], [:w KEY VALUE] or [:append KEY ELEMENT]"),
    ("{:type :invoke, :process 0, :f :txn, :value [[:w 1 nil]]}", "1:46 a write of nil can't be told from no write"),
    ('{:type :invoke, :process 0, :f :txn, :value [[:w "ä" 1] [:append "ä" 2]]}', "1:57 a key has either writes or appends"),
    (operation(0, "invoke", "[[:append 1 2] [:r 1 nil]]") + operation(0, "ok", "[[:append 1 2] [:r 1 2]]"), "2:59 a read of a key with appends finds a list or nil"),
    (operation(0, "ok", "[[:r 1 1]]"), "1:1 the process has invoked nothing that this completes"),
    (operation(0, "invoke", "[[:r 1 nil]]") * 2, "2:1 the process has invoked a transaction before that isn't complete"),
    (operation(0, "invoke", "[[:r 1 nil]]", time=5) + operation(0, "ok", "[[:r 1 nil]]", time=4), "2:1 the transaction completes before the time of its invocation"),
    (operation(0, "invoke", "[[:r 1 nil]]", index=0) + operation(1, "invoke", "[[:r 1 nil]]", index=0), "2:1 the index 0 is that of a transaction before"),
    ("[" * 128, "1:128 there are more than 127 brackets round this"),
]
CONTRADICTIONS = [
    (done(0, "[[:append 1 1]]") + done(1, "[[:append 1 2]]") + done(2, "[[:r 1 [1 2]]]") + done(3, "[[:r 1 [2]]]"), "incompatible order: the lists of 1 that lines 6 and 8"),
    (done(0, "[[:append 1 1]]") + done(1, "[[:append 1 1]]"), "an element is appended twice: 1 to 1, lines 2 and 4"),
    (done(0, "[[:append 1 1]]") + done(1, "[[:r 1 [1 1]]]"), "an element is twice in a list: that of 1 that line 4 found"),
    (done(0, "[[:append 1 1]]") + done(1, "[[:r 1 [2]]]"), "a list of 1 that line 4 found has 2, that nobody appended"),
    (operation(0, "invoke", "[[:append 1 1]]") + operation(0, "fail", "[[:append 1 1]]") + done(1, "[[:append 1 2]]") + done(2, "[[:r 1 [1 2]]]"),
     "a list of 1 that line 6 found has 1, whose transaction aborted"),
]


class ImportElle(unittest.TestCase):
    def log(self, text, *lines):
        self.assertEqual([json.dumps(it, ensure_ascii=False, separators=(",", ":")) for it in elle.log_of(text)], list(lines))

    def test_registers(self):
        self.log(REGISTERS, '{"txn":"T0","session":["0",0],"at":[10,20],"ops":[["write",":x",1],["read",":y",null]]}',
                 '{"txn":"T2","session":["1",0],"at":[30,45],"ops":[["read",":x",1]]}')

    def test_json(self):
        lines = ['{"type":"invoke","f":"txn","value":[["w","x",1],["r",6,null]],"process":0,"time":10,"index":0}',
                 '{"type":":ok","f":":txn","value":[[":w","x",1],["r",6,null]],"process":0,"time":20,"index":1}']
        wanted = '{"txn":"T0","session":["0",0],"at":[10,20],"ops":[["write","x",1],["read",6,null]]}'
        self.log("\n".join(lines), wanted)
        self.log(f"[{','.join(lines)}]", wanted)

    def test_ends(self):
        """Without a time or an index somewhere, places are times and transactions are counted."""
        self.log(ENDS, '{"txn":"T0","session":["0",0],"at":[0,2],"status":"aborted","ops":[["write",1,1]]}',
                 '{"txn":"T1","session":["0",1],"at":[3,null],"status":"unknown","ops":[["write",1,2]]}',
                 '{"txn":"T2","session":["3",0],"at":[7,null],"status":"unknown","ops":[["write",1,3]]}')
        self.log("[]")

    def test_other_names(self):
        """Operations count where their values are micro operations, whatever they are called."""
        text = operation(0, "invoke", "[[:w 1 1]]", time=-1) + operation(0, "ok", "[[:w 1 1]]", time=4)
        self.log(text.replace(":f :txn", ":f :transfer"), '{"txn":"T0","session":["0",0],"at":[0,1],"ops":[["write",1,1]]}')

    def test_values(self):
        self.log(done(0, VALUES), '{"txn":"T0","session":["0",0],"at":[0,1],"ops":[["write",7,3],["write","-1","-2"],["write","\\"7\\"","x"],'
                 '["write","\\"true\\"","true"],["write","1.5","\\\\a"],["write",9223372036854775807,"9223372036854775808"],'
                 '["write","[1 [2]]","{:a #{3}}"],["write","a\\"b","\\"\\\\\\\\\\""]]}')

    def test_appends(self):
        text = done(0, "[[:append 1 1]]") + done(1, "[[:append 1 2] [:r 2 []]]") + done(0, "[[:r 1 [1 2]] [:append 1 3] [:r 1 [1 2 3]]]")
        self.log(text, '{"txn":"T0","session":["0",0],"at":[0,1],"ops":[["write",1,1,{"version":1}]]}',
                 '{"txn":"T1","session":["1",0],"at":[2,3],"ops":[["write",1,2,{"version":2}],["read",2,null]]}',
                 '{"txn":"T2","session":["0",1],"at":[4,5],"ops":[["read",1,2],["write",1,3,{"version":3}],["read",1,3]]}')

    def test_an_element_in_no_list_has_no_version(self):
        text = done(0, "[[:append 1 1] [:append 1 2]]") + done(1, "[[:append 1 3]]") + done(0, "[[:r 1 [1 2]]]")
        self.log(text, '{"txn":"T0","session":["0",0],"at":[0,1],"ops":[["write",1,1,{"version":1}],["write",1,2,{"version":2}]]}',
                 '{"txn":"T1","session":["1",0],"at":[2,3],"ops":[["write",1,3]]}',
                 '{"txn":"T2","session":["0",1],"at":[4,5],"ops":[["read",1,2]]}')

    def test_size(self):
        """The log of lists that grow is linear in the appends."""
        reads = [done(1, f"[[:r 1 [{' '.join(map(str, range(1, it)))}]]]") for it in (1000, 2000)]
        text = "".join(done(0, f"[[:append 1 {it}]]") for it in range(1, 2000))
        self.assertLess(sum(len(json.dumps(it)) for it in elle.log_of(text + "".join(reads))), 4 * len(text))

    def test_faults(self):
        for text, wanted in FAULTS:
            with self.assertRaises(elle.Fault, msg=text) as found:
                elle.log_of(text)
            at = found.exception.at
            place = f"{elle.line_of(text, at)}:{at - text.rfind(chr(10), 0, at)}"
            self.assertEqual(f"{place} {found.exception}", wanted)

    def test_contradictions(self):
        for text, wanted in CONTRADICTIONS:
            with self.assertRaises(elle.Contradiction) as found:
                elle.log_of(text)
            self.assertIn(wanted, str(found.exception))


if __name__ == "__main__":
    unittest.main()
