// Records the calls of goroutines on a tree of afero, and writes a history of each round, of which an order is found:
//
//	examples/record/record go -goroutines 1 | atomfs linearize --many
//	examples/record/record go | atomfs linearize --many
//
// One goroutine comes first: what nothing explains there is another kind of tree, and no race. Debian has
// afero as golang-github-spf13-afero-dev. To record a tree of your own, put it into a Recorder, or a Reader if it is
// one of io/fs.
package main

import (
	"bufio"
	"errors"
	"flag"
	"fmt"
	"io/fs"
	"math/rand"
	"os"
	"path"
	"sort"
	"sync"
	"sync/atomic"
	"time"

	"github.com/spf13/afero"
)

type entry struct {
	at   int64
	text string
}

// History numbers the begins and the returns of calls by one counter. Each seat is one goroutine's.
type History struct {
	counter int64
	entries [][]entry
}

// Call records a call: its line, and the reply that it spells when it has been made, or its error.
func (history *History) Call(seat int, line string, made func() (string, error)) error {
	begun := atomic.AddInt64(&history.counter, 1)
	reply, err := made()
	returned := atomic.AddInt64(&history.counter, 1)
	if err != nil {
		reply = failed(err)
	}
	history.entries[seat] = append(history.entries[seat], entry{begun, fmt.Sprintf("begin %d %d %s", begun, seat, line)},
		entry{returned, fmt.Sprintf("return %d %s", begun, reply)})
	return err
}

// Write writes the entries in the order of their numbers.
func (history *History) Write(out *bufio.Writer) {
	var all []entry
	for _, entries := range history.entries {
		all = append(all, entries...)
	}
	sort.Slice(all, func(one, other int) bool { return all[one].at < all[other].at })
	fmt.Fprintln(out, "atomfs-journal 1")
	for _, entry := range all {
		fmt.Fprintln(out, entry.text)
	}
}

// failed spells the reply of a call that failed. `?` fits any error: this one is none of a file tree's.
func failed(err error) string {
	if errors.Is(err, fs.ErrExist) {
		return "failed EEXIST"
	} else if errors.Is(err, fs.ErrNotExist) {
		return "failed ENOENT"
	}
	return "failed ?"
}

func seen(info fs.FileInfo, err error) (string, error) {
	if err != nil {
		return "", err
	} else if info.IsDir() {
		return "stat dir ?", nil
	}
	return fmt.Sprintf("stat file %d", info.Size()), nil
}

// Recorder is an afero.Fs that records the calls of one goroutine on another. Calls that it does not name are not recorded.
type Recorder struct {
	afero.Fs
	history *History
	seat    int
}

func (to Recorder) Mkdir(path string, mode os.FileMode) error {
	return to.history.Call(to.seat, "mkdir "+path, func() (string, error) { return "ok", to.Fs.Mkdir(path, mode) })
}

// OpenFile is recorded if it makes a file that may not be there.
func (to Recorder) OpenFile(path string, flags int, mode os.FileMode) (file afero.File, err error) {
	if flags&os.O_CREATE == 0 || flags&os.O_EXCL == 0 {
		return to.Fs.OpenFile(path, flags, mode)
	}
	err = to.history.Call(to.seat, "mknod "+path, func() (string, error) {
		file, err = to.Fs.OpenFile(path, flags, mode)
		return "ok", err
	})
	return file, err
}

// Remove is recorded as that of a file.
func (to Recorder) Remove(path string) error {
	return to.history.Call(to.seat, "unlink "+path, func() (string, error) { return "ok", to.Fs.Remove(path) })
}

func (to Recorder) Rename(old, path string) error {
	return to.history.Call(to.seat, "rename "+old+" "+path, func() (string, error) { return "ok", to.Fs.Rename(old, path) })
}

func (to Recorder) Stat(path string) (info os.FileInfo, err error) {
	err = to.history.Call(to.seat, "stat "+path, func() (string, error) {
		info, err = to.Fs.Stat(path)
		return seen(info, err)
	})
	return info, err
}

// Reader is an fs.FS that records what one goroutine looks up in another.
type Reader struct {
	fs.FS
	history *History
	seat    int
}

func (from Reader) Stat(name string) (info fs.FileInfo, err error) {
	err = from.history.Call(from.seat, "stat "+path.Join("/", name), func() (string, error) {
		info, err = fs.Stat(from.FS, name)
		return seen(info, err)
	})
	return info, err
}

// work makes drawn calls, each after a drawn moment.
func work(tree afero.Fs, files fs.FS, draw *rand.Rand) {
	for at := 0; at < 4; at++ {
		time.Sleep(time.Duration(draw.Intn(20)) * time.Microsecond)
		switch path := []string{"/a", "/b"}[draw.Intn(2)]; draw.Intn(8) {
		case 0, 1:
			tree.Remove(path)
		case 2:
			tree.Stat(path)
		case 3:
			fs.Stat(files, path[1:])
		default:
			if file, err := tree.OpenFile(path, os.O_RDWR|os.O_CREATE|os.O_EXCL, 0o666); err == nil {
				file.Close()
			}
		}
	}
}

func main() {
	goroutines := flag.Int("goroutines", 3, "how many make calls at once")
	rounds := flag.Int("rounds", 2000, "how many histories are recorded")
	seed := flag.Int64("seed", 0, "draws the calls, and where goroutines stop for a moment")
	flag.Parse()
	draw, out := rand.New(rand.NewSource(*seed)), bufio.NewWriter(os.Stdout)
	defer out.Flush()
	for round := 0; round < *rounds; round++ {
		tree, history := afero.NewMemMapFs(), &History{entries: make([][]entry, *goroutines)}
		files := afero.NewIOFS(afero.NewBasePathFs(tree, "/"))
		var all sync.WaitGroup
		for seat := 0; seat < *goroutines; seat++ {
			all.Add(1)
			go func(seat int, own *rand.Rand) {
				defer all.Done()
				work(Recorder{tree, history, seat}, Reader{files, history, seat}, own)
			}(seat, rand.New(rand.NewSource(draw.Int63())))
		}
		all.Wait()
		history.Write(out)
	}
}
