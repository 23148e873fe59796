! Micaplume's operations for Fortran: include/micaplume.h says what a call is lent, what the caller owes and what the word of a reply holds.
module micaplume
    use, intrinsic :: iso_c_binding, only: c_char, c_int64_t, c_size_t
    implicit none
    private
    public :: micaplume_write_cards, micaplume_write_frames
    public :: micaplume_reduce_cards, micaplume_reduce_frames
    public :: micaplume_cone, micaplume_check
    public :: reply_number, reply_text, reply_place

    ! The longest text that is not refused with 1, and lengths of out that are never refused with 17.
    integer, parameter, public :: micaplume_text_bytes = 64800
    integer, parameter, public :: micaplume_deck_bytes = 6877
    integer, parameter, public :: micaplume_pieces_bytes = 423874

    interface
        ! A deck of cards or of frames, written as frames. counts: the bytes written, and 0.
        function micaplume_write_cards(text, text_length, out, out_length, counts) bind(c) result(word)
            import :: c_char, c_int64_t, c_size_t
            character(kind=c_char), intent(in) :: text(*)
            integer(c_size_t), value :: text_length
            character(kind=c_char), intent(inout) :: out(*)
            integer(c_size_t), value :: out_length
            integer(c_int64_t), intent(out) :: counts(2)
            integer(c_int64_t) :: word
        end function

        function micaplume_write_frames(text, text_length, out, out_length, counts) bind(c) result(word)
            import :: c_char, c_int64_t, c_size_t
            character(kind=c_char), intent(in) :: text(*)
            integer(c_size_t), value :: text_length
            character(kind=c_char), intent(inout) :: out(*)
            integer(c_size_t), value :: out_length
            integer(c_int64_t), intent(out) :: counts(2)
            integer(c_int64_t) :: word
        end function

        ! All reduced decks of a deck of cards or of frames. counts: the pieces, and the bytes written.
        function micaplume_reduce_cards(text, text_length, out, out_length, counts) bind(c) result(word)
            import :: c_char, c_int64_t, c_size_t
            character(kind=c_char), intent(in) :: text(*)
            integer(c_size_t), value :: text_length
            character(kind=c_char), intent(inout) :: out(*)
            integer(c_size_t), value :: out_length
            integer(c_int64_t), intent(out) :: counts(2)
            integer(c_int64_t) :: word
        end function

        function micaplume_reduce_frames(text, text_length, out, out_length, counts) bind(c) result(word)
            import :: c_char, c_int64_t, c_size_t
            character(kind=c_char), intent(in) :: text(*)
            integer(c_size_t), value :: text_length
            character(kind=c_char), intent(inout) :: out(*)
            integer(c_size_t), value :: out_length
            integer(c_int64_t), intent(out) :: counts(2)
            integer(c_int64_t) :: word
        end function

        ! The cone of a set of variables, bit i for Vi, in a deck of frames. counts: the cone, and its size.
        function micaplume_cone(deck, deck_length, set, counts) bind(c) result(word)
            import :: c_char, c_int64_t, c_size_t
            character(kind=c_char), intent(in) :: deck(*)
            integer(c_size_t), value :: deck_length
            integer(c_int64_t), value :: set
            integer(c_int64_t), intent(out) :: counts(2)
            integer(c_int64_t) :: word
        end function

        ! A claimed run checked against a deck, both frames.
        function micaplume_check(deck, deck_length, claim, claim_length) bind(c) result(word)
            import :: c_char, c_int64_t, c_size_t
            character(kind=c_char), intent(in) :: deck(*)
            integer(c_size_t), value :: deck_length
            character(kind=c_char), intent(in) :: claim(*)
            integer(c_size_t), value :: claim_length
            integer(c_int64_t) :: word
        end function
    end interface

contains

    ! The parts of a reply's word.
    elemental function reply_number(word) result(number)
        integer(c_int64_t), intent(in) :: word
        integer(c_int64_t) :: number
        number = ibits(word, 0, 8)
    end function

    elemental function reply_text(word) result(text)
        integer(c_int64_t), intent(in) :: word
        integer(c_int64_t) :: text
        text = ibits(word, 8, 8)
    end function

    elemental function reply_place(word) result(place)
        integer(c_int64_t), intent(in) :: word
        integer(c_int64_t) :: place
        place = ibits(word, 16, 48)
    end function
end module
