! A front end in Fortran: what examples/frontend.c does, with the same lines printed.
!
!     frontend DECK
program frontend
    use, intrinsic :: iso_c_binding, only: c_char, c_int64_t, c_new_line, c_size_t
    use micaplume
    implicit none
    character(kind=c_char) :: cards(micaplume_text_bytes + 1)
    character(kind=c_char) :: frames(micaplume_deck_bytes), pieces(micaplume_pieces_bytes)
    integer(c_int64_t) :: word, counts(2)
    integer(c_size_t) :: length, bytes

    call read_deck(length)
    word = micaplume_write_cards(cards, length, frames, size(frames, kind=c_size_t), counts)
    call print_word('deck', word)
    if (word /= 0) stop
    bytes = counts(1)
    call print_lines(frames, bytes)

    call print_word('pieces', micaplume_reduce_cards(cards, length, pieces, size(pieces, kind=c_size_t), counts))
    print '(i0, a, i0, a)', counts(1), ' pieces, ', counts(2), ' bytes'
    call print_lines(pieces, counts(2))

    call print_word('cone of V0', micaplume_cone(frames, bytes, 1_c_int64_t, counts))
    print '(z16.16, a, i0, a)', counts(1), ', ', counts(2), ' variables'
    call check_staying

contains

    subroutine read_deck(length)
        integer(c_size_t), intent(out) :: length
        character(len=4096) :: path
        integer :: unit, stopped, file_bytes
        call get_command_argument(1, path, status=stopped)
        if (stopped /= 0) error stop 'usage: frontend DECK'
        open (newunit=unit, file=path, access='stream', form='unformatted', action='read', status='old', iostat=stopped)
        if (stopped /= 0) error stop 'usage: frontend DECK'
        inquire (unit=unit, size=file_bytes)
        length = min(file_bytes, size(cards))
        read (unit) cards(1:length)
        close (unit)
    end subroutine

    ! The word of a reply as number, text and place.
    subroutine print_word(what, word)
        character(len=*), intent(in) :: what
        integer(c_int64_t), intent(in) :: word
        print '(a, a, i0, 1x, i0, 1x, i0)', what, ': ', reply_number(word), reply_text(word), reply_place(word)
    end subroutine

    ! A text of ended lines.
    subroutine print_lines(text, length)
        character(kind=c_char), intent(in) :: text(*)
        integer(c_int64_t), intent(in) :: length
        integer(c_int64_t) :: first, at
        first = 1
        do at = 1, length
            if (text(at) == c_new_line) then
                print '(*(a))', text(first:at - 1)
                first = at + 1
            end if
        end do
    end subroutine

    ! The claim that the deck stays in its first initial state for ever: p = 0 and c = 1.
    subroutine check_staying
        character(len=:, kind=c_char), allocatable :: claim
        character(len=16, kind=c_char) :: state
        integer :: i, second_line
        second_line = findloc(frames, c_new_line, dim=1) + 1
        do i = 1, 16
            state(i:i) = frames(second_line + 1 + i)
        end do
        claim = '1100000001' // c_new_line // '12' // state // c_new_line // '150002' // c_new_line
        call print_word('claim', micaplume_check(frames, bytes, claim, len(claim, kind=c_size_t)))
    end subroutine
end program
