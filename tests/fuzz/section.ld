/* Puts the machine code of the archive into a section of its own. */
SECTIONS
{
  subject_text : { *(.text .text.*) }
}
