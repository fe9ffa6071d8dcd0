#!/usr/bin/env bash
# Two laws tie what a disk is supposed to do to the calls that a `FileDev` makes. Told of a call that isn't made they would prove
# anything, so three proofs alone may cite them: those of the functions that make one call each.
cd "$(dirname "$0")/.." || exit 1
cited=$(grep -rlE 'recorded_change|recorded_read' crates --include='*.antt' --include='*.rt' --exclude-dir=out | sort)
wanted='crates/sect_dev/proofs/file_dev/FileDev/fdatasync/Answers.antt
crates/sect_dev/proofs/file_dev/FileDev/pread/Answers.antt
crates/sect_dev/proofs/file_dev/FileDev/pwrite/Answers.antt
crates/sect_dev/specs/FileHistory.antt'
[ "$cited" = "$wanted" ] || { echo "the laws of a file's history are cited elsewhere:"; echo "$cited"; exit 1; }

# the file of a device is named where it is opened, and on the one line of each of the three
named=$(grep -rhoE '(self|dev|device)\.file\b[^;]*' crates/sect_dev/src | sort)
wanted='self.file.read_at(out, at)
self.file.sync_data()
self.file.write_all_at(from, at)'
[ "$named" = "$wanted" ] || { echo "the file of a device is named elsewhere:"; echo "$named"; exit 1; }
taken=$(grep -cE '^ *file(,|:)' crates/sect_dev/src/file_dev.rt)
[ "$taken" = 2 ] || { echo "the file of a device is taken out of it: $taken lines"; exit 1; }

# and each cites one law once, for the one call of its function
for function in fdatasync pread pwrite; do
  proof=crates/sect_dev/proofs/file_dev/FileDev/$function/Answers.antt
  uses=$(grep -v '^use ' "$proof" | grep -coE 'recorded_change|recorded_read')
  [ "$uses" = 1 ] || { echo "$proof cites a law on $uses lines"; exit 1; }
done
