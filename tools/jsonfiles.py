#!/usr/bin/env python3
# Derives what crates/jsonfiles must write for the published files, from their names and from document 01 alone.
# jsonfiles.py            writes data/list and stdout
# jsonfiles.py --table    prints the files whose answer does not follow from their first letter, as a Markdown table
# jsonfiles.py --compare  compares with the opinion of Python's json module (tools/second_opinion.py)
#
# The suite's own convention: y_ must be taken, n_ must be refused, i_ is left to the reader. Document 01 decides the rest:
# 4 over 32,768 bytes, 5 not UTF-8 or not JSON at most 16 deep, 6 a name twice or a surrogate escape without its partner.
import os,sys
here=os.path.dirname(os.path.abspath(__file__)); crate=os.path.join(here,'..','crates','jsonfiles'); data=os.path.join(crate,'data')
number='a number of any size is JSON'; lone='a surrogate escape without its partner'; utf8='not well-formed UTF-8'
known={
 'n_structure_100000_opening_arrays.json':(4,'100,000 bytes: too long is judged first'),
 'n_structure_open_array_object.json':(4,'250,001 bytes: too long is judged first'),
 'y_object_duplicated_key.json':(6,'a member name twice'),
 'y_object_duplicated_key_and_value.json':(6,'a member name twice, with one value'),
 'i_structure_500_nested_arrays.json':(5,'nested 500 deep'),
 'i_structure_UTF-8_BOM_empty_object.json':(5,'a byte order mark'),
 'i_number_double_huge_neg_exp.json':(0,number),
 'i_number_huge_exp.json':(0,number),
 'i_number_neg_int_huge_exp.json':(0,number),
 'i_number_pos_double_huge_exp.json':(0,number),
 'i_number_real_neg_overflow.json':(0,number),
 'i_number_real_pos_overflow.json':(0,number),
 'i_number_real_underflow.json':(0,number),
 'i_number_too_big_neg_int.json':(0,number),
 'i_number_too_big_pos_int.json':(0,number),
 'i_number_very_big_negative_int.json':(0,number),
 'i_object_key_lone_2nd_surrogate.json':(6,lone+', in a name'),
 'i_string_1st_surrogate_but_2nd_missing.json':(6,lone),
 'i_string_1st_valid_surrogate_2nd_invalid.json':(6,lone),
 'i_string_incomplete_surrogate_and_escape_valid.json':(6,lone),
 'i_string_incomplete_surrogate_pair.json':(6,lone),
 'i_string_incomplete_surrogates_escape_valid.json':(6,lone),
 'i_string_invalid_lonely_surrogate.json':(6,lone),
 'i_string_invalid_surrogate.json':(6,lone),
 'i_string_inverted_surrogates_U+1D11E.json':(6,lone+': the pair is the wrong way round'),
 'i_string_lone_second_surrogate.json':(6,lone),
 'i_string_UTF-16LE_with_BOM.json':(5,'UTF-16: '+utf8),
 'i_string_utf16BE_no_BOM.json':(5,'UTF-16: no JSON in UTF-8'),
 'i_string_utf16LE_no_BOM.json':(5,'UTF-16: no JSON in UTF-8'),
 'i_string_UTF-8_invalid_sequence.json':(5,utf8),
 'i_string_UTF8_surrogate_U+D800.json':(5,'a raw surrogate: '+utf8),
 'i_string_invalid_utf-8.json':(5,utf8),
 'i_string_iso_latin_1.json':(5,utf8),
 'i_string_lone_utf8_continuation_byte.json':(5,utf8),
 'i_string_not_in_unicode_range.json':(5,'above U+10FFFF: '+utf8),
 'i_string_overlong_sequence_2_bytes.json':(5,'an overlong form: '+utf8),
 'i_string_overlong_sequence_6_bytes.json':(5,'an overlong form: '+utf8),
 'i_string_overlong_sequence_6_bytes_null.json':(5,'an overlong form: '+utf8),
 'i_string_truncated-utf-8.json':(5,utf8),
}
names=sorted(f for f in os.listdir(data) if f.endswith('.json'))
def answer(n):
    if n in known: return known[n][0]
    return {'y':0,'n':5}[n[0]]        # an i_ file that is not decided above is an error
if __name__!='__main__': pass      # tools/gatewaycases.py asks for the answers
elif '--table' in sys.argv:
    print('| file | answer | reason |\n|---|---|---|')
    for n in sorted(known): print('| `%s` | %d | %s |'%(n,known[n][0],known[n][1]))
elif '--compare' in sys.argv:
    sys.path.insert(0,here)
    from second_opinion import judge
    bad=[n for n in names if judge(open(os.path.join(data,n),'rb').read())!=answer(n)]
    print('%d files, %d differ'%(len(names),len(bad)),*bad)
else:
    assert set(known)<=set(names)
    open(os.path.join(data,'list'),'w').write(''.join(n+'\n' for n in names))
    open(os.path.join(crate,'stdout'),'w').write(''.join('%s\t%d\n'%(n,answer(n)) for n in names))
