// pion/stun as a peer. `write`: descriptions in, messages out; `read`: the other way; `judge`: what it says to each datagram.
package main

import (
	"bufio"
	"encoding/hex"
	"fmt"
	"net"
	"os"
	"strconv"
	"strings"

	"github.com/pion/stun"
)

func must(err error) {
	if err != nil {
		panic(err)
	}
}

func bytesOf(text string) []byte {
	if text == "-" {
		return nil
	}
	b, err := hex.DecodeString(text)
	must(err)
	return b
}

func number(text string, base int) int {
	n, err := strconv.ParseUint(text, base, 16)
	must(err)
	return int(n)
}

func address(text string) (net.IP, int) {
	host, port, err := net.SplitHostPort(text)
	must(err)
	return net.ParseIP(host), number(port, 10)
}

// setter turns one described attribute into what pion adds.
func setter(attribute string, key []byte) stun.Setter {
	kind, value, _ := strings.Cut(attribute, "=")
	switch kind {
	case "username":
		return stun.NewUsername(value)
	case "realm":
		return stun.NewRealm(value)
	case "nonce":
		return stun.NewNonce(value)
	case "software":
		return stun.NewSoftware(value)
	case "mapped-address":
		ip, port := address(value)
		return &stun.MappedAddress{IP: ip, Port: port}
	case "xor-mapped-address":
		ip, port := address(value)
		return &stun.XORMappedAddress{IP: ip, Port: port}
	case "alternate-server":
		ip, port := address(value)
		return &stun.AlternateServer{IP: ip, Port: port}
	case "error-code":
		code, phrase, _ := strings.Cut(value, ":")
		return stun.ErrorCodeAttribute{Code: stun.ErrorCode(number(code, 10)), Reason: []byte(phrase)}
	case "unknown-attributes":
		var types stun.UnknownAttributes
		for _, text := range strings.Split(value, ",") {
			types = append(types, stun.AttrType(number(text, 16)))
		}
		return types
	case "integrity":
		return stun.MessageIntegrity(key)
	case "fingerprint":
		return stun.Fingerprint
	}
	kind, value, _ = strings.Cut(strings.TrimPrefix(attribute, "raw="), ":")
	return stun.RawAttribute{Type: stun.AttrType(number(kind, 16)), Value: bytesOf(value)}
}

func write(name string, told []string) []string {
	m := new(stun.Message)
	m.Type = stun.NewType(stun.Method(number(told[1], 10)), stun.MessageClass(number(told[0], 10)))
	copy(m.TransactionID[:], bytesOf(told[2]))
	m.WriteHeader()
	for _, attribute := range told[4:] {
		must(setter(attribute, bytesOf(told[3])).AddTo(m))
	}
	return []string{name, told[3], hex.EncodeToString(m.Raw)}
}

func shown(m *stun.Message, a stun.RawAttribute, key []byte) string {
	// the getters take the first of a type, so each attribute is read from a message that has it alone
	alone := new(stun.Message)
	alone.TransactionID = m.TransactionID
	alone.WriteHeader()
	alone.Add(a.Type, a.Value)
	text := func(name string) string { return name + "=" + string(a.Value) }
	switch a.Type {
	case stun.AttrUsername:
		var v stun.Username
		must(v.GetFrom(alone))
		return text("username")
	case stun.AttrRealm:
		var v stun.Realm
		must(v.GetFrom(alone))
		return text("realm")
	case stun.AttrNonce:
		var v stun.Nonce
		must(v.GetFrom(alone))
		return text("nonce")
	case stun.AttrSoftware:
		var v stun.Software
		must(v.GetFrom(alone))
		return text("software")
	case stun.AttrMappedAddress:
		var v stun.MappedAddress
		must(v.GetFrom(alone))
		return "mapped-address=" + v.String()
	case stun.AttrXORMappedAddress:
		var v stun.XORMappedAddress
		must(v.GetFrom(alone))
		return "xor-mapped-address=" + v.String()
	case stun.AttrAlternateServer:
		var v stun.AlternateServer
		must(v.GetFrom(alone))
		return "alternate-server=" + (&stun.MappedAddress{IP: v.IP, Port: v.Port}).String()
	case stun.AttrErrorCode:
		var v stun.ErrorCodeAttribute
		must(v.GetFrom(alone))
		return fmt.Sprintf("error-code=%d:%s", v.Code, v.Reason)
	case stun.AttrUnknownAttributes:
		var v stun.UnknownAttributes
		must(v.GetFrom(alone))
		var types []string
		for _, t := range v {
			types = append(types, fmt.Sprintf("%04x", uint16(t)))
		}
		return "unknown-attributes=" + strings.Join(types, ",")
	case stun.AttrMessageIntegrity:
		if key != nil {
			must(stun.MessageIntegrity(key).Check(m))
		}
		return "integrity"
	case stun.AttrFingerprint:
		must(stun.Fingerprint.Check(m))
		return "fingerprint"
	}
	return fmt.Sprintf("raw=%04x:%x", uint16(a.Type), a.Value)
}

func read(name string, told []string) []string {
	m := new(stun.Message)
	m.Raw = bytesOf(told[1])
	must(m.Decode())
	said := []string{name, strconv.Itoa(int(m.Type.Class)), strconv.Itoa(int(m.Type.Method)), hex.EncodeToString(m.TransactionID[:]), told[0]}
	for _, a := range m.Attributes {
		said = append(said, shown(m, a, bytesOf(told[0])))
	}
	return said
}

// judge takes a datagram if it decodes, every attribute can be had by its getter, and the integrity is right where a key is given.
func judge(name string, told []string) []string {
	read(name, told)
	if told[0] != "-" {
		m := &stun.Message{Raw: bytesOf(told[1])}
		must(m.Decode())
		must(stun.MessageIntegrity(bytesOf(told[0])).Check(m))
	}
	return []string{name, "takes"}
}

func answer(mode, name string, told []string) (said []string) {
	defer func() {
		if fault := recover(); fault != nil {
			said = []string{name, "can't"}
			if mode == "judge" {
				said[1] = "refuses"
			}
		}
	}()
	switch mode {
	case "write":
		return write(name, told)
	case "read":
		return read(name, told)
	}
	return judge(name, told)
}

func main() {
	lines := bufio.NewScanner(os.Stdin)
	lines.Buffer(nil, 1<<20)
	for lines.Scan() {
		words := strings.Split(lines.Text(), "\t")
		fmt.Println(strings.Join(answer(os.Args[1], words[0], words[1:]), "\t"))
	}
	must(lines.Err())
}
