package linkcaptest

import (
	"fmt"
	"regexp"
	"strings"
)

var (
	namePattern            = regexp.MustCompile(`^[A-Za-z_][\w.-]*$`)
	attributePattern       = regexp.MustCompile(`^( +)([A-Z]\w*)( (?:nested )?)(.*)$`)
	quotedPattern          = regexp.MustCompile(`^"((?:[^"\\]|\\.)*)"$`)
	quotedIndexPattern     = regexp.MustCompile(`( (?:if)?index )"((?:[^"\\]|\\.)*)"`)
	hardwareAddressPattern = regexp.MustCompile(`^[0-9a-f]{2}(?::[0-9a-f]{2})*$`)
	bridgeIDPattern        = regexp.MustCompile(`^([0-9a-f]{4}\.)([0-9a-f]{2})([0-9a-f]{2})([0-9a-f]{2})([0-9a-f]{2})([0-9a-f]{2})([0-9a-f]{2})$`)
)

// A rule puts a name in place of the texts that an expression matches as a whole.
type rule struct {
	expression *regexp.Regexp
	name       string
}

// A replacement puts fixed names in place of names of links and hardware addresses, in lines that it gets in order. It is that
// of lines_replace.py.
type replacement struct {
	rules  []rule
	names  map[string]string
	counts map[string]int
}

// newReplacement returns the replacement by words of the form REGEX=NAME.
func newReplacement(words []string) (*replacement, error) {
	r := &replacement{names: map[string]string{}, counts: map[string]int{}}
	for _, word := range words {
		parsed, err := parseRule(word)
		if err != nil {
			return nil, err
		}
		r.rules = append(r.rules, parsed)
	}
	return r, nil
}

// parseRule returns the expression and the name of REGEX=NAME, which the last = separates.
func parseRule(word string) (rule, error) {
	separator := strings.LastIndexByte(word, '=')
	if separator < 1 {
		return rule{}, fmt.Errorf("%s: not of the form REGEX=NAME", word)
	}
	if !namePattern.MatchString(word[separator+1:]) {
		return rule{}, fmt.Errorf("%s: a NAME is a letter, and letters, digits, '_', '.' and '-'", word)
	}
	expression, err := regexp.Compile(`\A(?:` + word[:separator] + `)\z`)
	if err != nil {
		return rule{}, fmt.Errorf("%s: no regular expression: %w", word, err)
	}
	return rule{expression, word[separator+1:]}, nil
}

// apply returns lines with names in place of texts that match.
func (r *replacement) apply(lines string) string {
	if len(r.rules) == 0 {
		return lines
	}
	all := strings.Split(lines, "\n")
	for i, line := range all {
		all[i] = r.line(line)
	}
	return strings.Join(all, "\n")
}

func (r *replacement) line(line string) string {
	if parts := attributePattern.FindStringSubmatch(line); parts != nil {
		return parts[1] + parts[2] + parts[3] + r.value(parts[2], parts[4])
	}
	if !strings.HasPrefix(line, " ") {
		return line
	}
	return quotedIndexPattern.ReplaceAllStringFunc(line, func(field string) string {
		parts := quotedIndexPattern.FindStringSubmatch(field)
		return parts[1] + `"` + r.name(parts[2]) + `"`
	})
}

// value returns the value of an attribute, with a name in place of the text or the address in it.
func (r *replacement) value(attribute, value string) string {
	if parts := quotedPattern.FindStringSubmatch(value); parts != nil {
		if linkNames[attribute] {
			return `"` + r.name(parts[1]) + `"`
		}
		return value
	}
	if hardwareAddresses[attribute] && hardwareAddressPattern.MatchString(value) {
		return r.name(value)
	}
	parts := bridgeIDPattern.FindStringSubmatch(value)
	if !bridgeIDs[attribute] || parts == nil {
		return value
	}
	address := strings.Join(parts[2:], ":")
	if name := r.name(address); name != address {
		return parts[1] + name
	}
	return value
}

// name returns the name for a text, or the text if no expression matches it.
func (r *replacement) name(text string) string {
	if name, ok := r.names[text]; ok {
		return name
	}
	name := text
	for _, rule := range r.rules {
		if rule.expression.MatchString(text) {
			name = r.next(rule.name)
			break
		}
	}
	r.names[text] = name
	return name
}

// next returns a name for the first text that gets it, and then the name with a number.
func (r *replacement) next(name string) string {
	r.counts[name]++
	if r.counts[name] == 1 {
		return name
	}
	return fmt.Sprintf("%s#%d", name, r.counts[name])
}
