// What kafka-go 0.2.1 gets of a broker, line by line, for kafka_go.py beside this file (Debian: golang-go,
// golang-github-segmentio-kafka-go-dev). It does one thing at a time:
//
//	kafka_go HOST:PORT make TOPIC                  a topic of two partitions
//	kafka_go HOST:PORT records TOPIC               offsets of partition 0, a message written to it, one read from it
//	kafka_go HOST:PORT group TOPIC GROUP OFFSET    a member that reads, commits past that offset of partition 0, and ends
//	kafka_go HOST:PORT delete TOPIC
package main

import (
	"context"
	"fmt"
	"log"
	"os"
	"strconv"
	"time"

	kafka "github.com/segmentio/kafka-go"
)

const patience = 5 * time.Second

func must(err error) {
	if err != nil {
		log.Fatalln("kafka-go:", err)
	}
}

func dial(topic string) *kafka.Conn {
	conn, err := kafka.DialLeader(context.Background(), "tcp", os.Args[1], topic, 0)
	must(err)
	must(conn.SetDeadline(time.Now().Add(patience)))
	return conn
}

func makeTopic(topic string) {
	conn, err := kafka.Dial("tcp", os.Args[1])
	must(err)
	defer conn.Close()
	must(conn.SetDeadline(time.Now().Add(patience)))
	fmt.Println("made:", conn.CreateTopics(kafka.TopicConfig{Topic: topic, NumPartitions: 2, ReplicationFactor: 1}))
	found, err := conn.ReadPartitions(topic)
	fmt.Println("partitions:", len(found), err)
}

func records(topic string) {
	conn := dial(topic)
	first, last, err := conn.ReadOffsets()
	fmt.Println("offsets:", first, last, err)
	_, err = conn.WriteMessages(kafka.Message{Value: []byte("one")})
	fmt.Println("written:", err)
	conn.Close()
	conn = dial(topic)
	defer conn.Close()
	_, err = conn.ReadMessage(1 << 20)
	fmt.Println("read:", err)
}

func group(topic, name string, offset int64) {
	reader := kafka.NewReader(kafka.ReaderConfig{Brokers: os.Args[1:2], GroupID: name, Topic: topic, MaxWait: time.Second})
	within, cancel := context.WithTimeout(context.Background(), patience)
	defer cancel()
	_, err := reader.FetchMessage(within)
	fmt.Println("read:", err)
	fmt.Println("committed:", reader.CommitMessages(context.Background(), kafka.Message{Topic: topic, Partition: 0, Offset: offset}))
	fmt.Println("closed:", reader.Close())
}

func main() {
	if len(os.Args) < 4 {
		log.Fatalln("usage: kafka_go HOST:PORT make|records|group|delete TOPIC [GROUP OFFSET]")
	}
	switch topic := os.Args[3]; os.Args[2] {
	case "make":
		makeTopic(topic)
	case "records":
		records(topic)
	case "group":
		offset, err := strconv.ParseInt(os.Args[5], 10, 64)
		must(err)
		group(topic, os.Args[4], offset)
	case "delete":
		conn := dial(topic)
		defer conn.Close()
		fmt.Println("deleted:", conn.DeleteTopics(topic))
	}
}
