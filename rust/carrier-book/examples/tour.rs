use carrier_book::{voucher_price, Book, Declined, Mark};

fn main() -> Result<(), Declined> {
    let mut book = Book::new(64)?;
    book.post(1, 3, 0)?;
    book.post(2, 1, 10)?;
    println!("{}", book.post(3, 100_001, 0).unwrap_err());
    let found = book.query(5)?;
    println!("offer {} at {} cents, and offer {}", found.number, found.price, found.second);
    for offer in book.report(4, 14)? {
        println!("offer {} costs less than 14 cents at load 4", offer.number);
    }
    for piece in book.pieces() {
        println!("offer {} up to {}/{}", piece.number, piece.numerator, piece.denominator);
    }
    for mark in book.marks() {
        match mark {
            Mark::OpenEnd(rate) => println!("an open end at the rate {rate}"),
            Mark::Crossing(point) => println!("a crossing at load {} for {} cents", point.load, point.price),
        }
    }
    let mut others = Book::new(64)?;
    others.post(7, -1, 100)?;
    let meeting = book.meet(&others)?;
    println!("offer {}, and then offer {} of the others", meeting.u, meeting.v);
    println!("{} cents are {} units", 150, voucher_price(150)?);
    book.withdraw(1)?;
    println!("then offer {}", book.query(5)?.number);
    book.take_back()?;
    println!("offer {} is back", book.query(4)?.number);
    let copy = Book::try_from(book.as_words().to_vec())?;
    println!("{copy:?}");
    println!("{}", copy.mark(9).unwrap_err());
    Ok(())
}
